#!/usr/bin/env python3
"""Hostile bytes at a host's link, before and after the two hosts have met, from who lives and from who stands by, and at its control
socket, while a client asks the guest:

    fuzz/hosts.py 100000 --seed 1

Nothing of it may end a host, change its role, disturb the client, or be logged more than once a second. REMUS and REMUS_NODE name the
program as in tests/hosts.py. The last line says how many messages were sent, and what is wrong."""
import argparse
import json
import random
import socket
import ssl
import sys
import tempfile
import time
from pathlib import Path

ROOT = Path(__file__).resolve().parents[1]
sys.path.insert(0, str(ROOT))
from host import messages
from tests.hosts import Asker, free_ports, loopback_pair, protected

COUNTER = ROOT / "examples" / "counter.sim"
AT_ONCE = 50  # lines of the control socket, on one connection
PATIENCE = 30  # seconds, for a connection that is to come about on a machine with other work
SESSION = bytes(range(16))
HELLO = dict(version=messages.VERSION, name="x", instance="y", role="empty", life=None, generation=0, session=None, full=False,
             committed=None)
OFFER = dict(name="x", instance="y", life="z", generation=5, pages=32, sectors=8)
# None of these is a request that would change a role, nor a few bytes from one.
LINES = [{"do": "status"}, {"do": "metrics"}, {"do": "promote", "boot": ["true", "or", "false"]}, {"do": "save"},
         {"do": "alone", "standby": ["one", "that", "isn't"]}, {"do": "drain", "within_ms": "a while"}, {"do": ["status"]},
         {"do": {"do": "status"}}, {"do": "demote", "because": ["of", "nothing"]}]


def mutated(rng, data):
    """Bytes like these, and not quite."""
    data = bytearray(data)
    for _ in range(rng.choice([1, 1, 1, 2, 8])):
        place = rng.randrange(len(data) + 1)
        how = rng.randrange(5)
        if how == 0:
            data[place:place + 1] = bytes([rng.randrange(256)])
        elif how == 1:
            del data[place:place + rng.randrange(1, 9)]
        elif how == 2:
            data[place:place] = rng.randbytes(rng.randrange(1, 9))
        elif how == 3 and data:
            data[place % len(data)] ^= 1 << rng.randrange(8)
        else:
            data[place:] = data[place // 2:place]
    return bytes(data)


def any_message(rng, session):
    """One of each kind, with what its body may be, of that session or another."""
    session = rng.choice([bytes(16), session, session, rng.randbytes(16)])
    number = lambda: rng.choice([0, 1, 2, rng.randrange(1000), 2**62 - 1, 2**62, 2**64 - 1])
    kind = rng.randrange(1, 14)
    if kind == messages.HELLO:
        hello = HELLO | {"session": rng.choice([None, session.hex(), "x"]), "full": rng.random() < 0.5, "generation": rng.randrange(9),
                         "life": rng.choice([None, "z"]), "role": rng.choice(["empty", "standby", "frozen", "live", "x"])}
        return messages.told(kind, bytes(16), **hello)
    if kind == messages.OFFER:
        return messages.told(kind, session, **OFFER | {"generation": number() % 2**64, "pages": rng.choice([1, 32, 0, 10**9])})
    if kind == messages.TEXT:
        return messages.text(session, number() % 2**64, number() % 2**64, number() % 2**64, number() % 2**64,
                             rng.randbytes(rng.randrange(600)))
    if kind == messages.STAYS:
        return messages.told(kind, session, why=rng.choice(["x", None, "x" * 300]))
    if kind in (messages.ACK, messages.GO_LIVE, messages.LIVE):
        return messages.message(kind, session, messages.NUMBER.pack(number() % 2**64, number() % 2**64))
    if kind > messages.STAYS:
        return rng.randbytes(rng.randrange(1, 200))
    return messages.message(kind, session, rng.choice([b"", b"{}", b"[]", rng.randbytes(rng.randrange(60)), b"{" * 900]))


def spoken(line, rng, most, session=SESSION):
    """Says messages over a connection until the other end has enough, or so many were said. Answers how many."""
    line.settimeout(2)
    count = 0
    try:
        while count < most:
            message = any_message(rng, session)
            line.sendall(mutated(rng, message) if rng.random() < 0.5 else message)
            count += 1
            if rng.random() < 0.3:
                line.settimeout(0.001)
                if not line.recv(1 << 16):
                    break
                line.settimeout(2)
    except (TimeoutError, ssl.SSLError, OSError):
        pass
    return max(count, 1)


def strangers(rng, port, count, context=None):
    """Connections to a host that say nonsense; through TLS as the peer, where a context is given. Answers how many messages it said, as
    those below."""
    said = 0
    while said < count:
        with socket.create_connection(("127.0.0.1", port), timeout=PATIENCE) as tcp:
            try:
                line = context.wrap_socket(tcp) if context else tcp
                said += spoken(line, rng, rng.choice([1, 2, 5, 20]))
                line.close()
            except (ssl.SSLError, OSError):
                said += 1
    return said


def false_standby(rng, port, count, gone=lambda: None):
    """A standby that attaches as it should, and then says nonsense. `gone` is called once it has."""
    said, session = 0, SESSION
    while said < count:
        with socket.create_connection(("127.0.0.1", port), timeout=PATIENCE) as line:
            try:
                line.sendall(messages.told(messages.HELLO, bytes(16), **HELLO))
                answer = bytearray(line.recv(4096))
                kind, session, _ = messages.taken(answer, 1 << 20)[0]
                if kind == messages.OFFER:
                    line.sendall(messages.message(messages.READY, session))
            except (OSError, IndexError):
                pass
            said += spoken(line, rng, 20, session)
        gone()
    return said


def false_live(rng, listener, count):
    """A live host that offers an attachment as it should, and then says nonsense, each time that it is dialled."""
    said = 0
    listener.settimeout(PATIENCE)
    while said < count:
        line, _ = listener.accept()
        with line:
            line.settimeout(1)
            try:
                line.recv(4096)
                if rng.random() < 0.7:
                    line.sendall(messages.told(rng.choice([messages.OFFER, messages.OVER, messages.RESUME, messages.NO]), SESSION, **OFFER))
            except OSError:
                pass
            said += spoken(line, rng, 40)
    return said


def lines(rng, path, count):
    """Lines to a control socket."""
    said = 0
    while said < count:
        with socket.socket(socket.AF_UNIX) as line:
            line.settimeout(PATIENCE)
            line.connect(path)
            try:
                for _ in range(AT_ONCE):
                    wanted = json.dumps(rng.choice(LINES)).encode()
                    line.sendall(rng.choice([mutated(rng, wanted), mutated(rng, wanted), wanted, rng.randbytes(40)]).replace(b"\n", b"") +
                                 b"\n")
                    said += 1
                if rng.random() < 0.1:
                    line.sendall(b"x" * (1 << 17))
                if rng.random() < 0.8:
                    line.recv(1 << 16)
            except OSError:
                said += 1
    return said


def play(room, count, seed):
    """At least so many messages. Answers how many there were of which kind, and what is wrong, or None."""
    rng, room, said = random.Random(seed), Path(room), {}
    plain, secret = room / "plain", room / "secret"
    for folder in (plain, secret):
        folder.mkdir()
    wrong = over_tls(rng, secret, count // 20, said) or over_plain(rng, plain, count - count // 20, said)
    return said, wrong


def over_tls(rng, room, count, said):
    a, b = loopback_pair(room, COUNTER)
    asker = Asker(a, b)
    try:
        begun = time.monotonic()
        a.start().ask("promote", boot=True)
        b.start()
        session = protected(a, b)["session"]
        asker.start()
        asker.wait(3)
        port = int(a.settings["listen"].rpartition(":")[2])
        context = ssl.SSLContext(ssl.PROTOCOL_TLS_CLIENT)
        context.check_hostname, context.verify_mode = False, ssl.CERT_NONE
        said["before TLS"] = strangers(rng, port, count // 4)
        said["without a certificate"] = strangers(rng, port, count // 4, context)
        context.load_cert_chain(b.settings["certificate"], b.settings["key"])
        said["over TLS"] = strangers(rng, port, count - count // 4 * 2, context)
        return what_is_wrong(a, b, session, asker, begun)
    finally:
        a.kill()
        b.kill()


def over_plain(rng, room, count, said):
    [other] = free_ports(1)
    to_standby = count // 16  # which dials a few times a second
    a, b = loopback_pair(room, COUNTER, plain=True, link_ms=300)
    asker = Asker(a, b)
    try:
        begun = time.monotonic()
        a.start().ask("promote", boot=True)
        b.start()
        session = protected(a, b)["session"]
        asker.start()
        asker.wait(3)
        port = int(a.settings["listen"].rpartition(":")[2])
        said["by strangers"] = strangers(rng, port, count - count // 8 * 4 - to_standby)
        said["by a second standby"] = false_standby(rng, port, count // 8)
        said["control"] = lines(rng, a.control, count // 8) + lines(rng, b.control, count // 8)
        if wrong := what_is_wrong(a, b, session, asker, begun):
            return wrong
        b.kill()
        a.ask("alone")
        said["by a standby"] = false_standby(rng, port, count // 8, lambda: a.ask("alone"))
        b.settings["peer"], kept = f"127.0.0.1:{other}", b.settings["peer"]
        with socket.create_server(("127.0.0.1", other)) as listener:
            b.start()
            said["by a live host"] = false_live(rng, listener, to_standby)
        if (role := b.status()["role"]) == "live":
            return "a host went live by what a false one said"
        if role == "frozen":
            return f"a host is {role}"
        b.kill()
        a.ask("alone")
        b.start(peer=kept)
        protected(a, b)
        return "the live host ended" if a.process.poll() is not None else None
    finally:
        a.kill()
        b.kill()


def what_is_wrong(a, b, session, asker, begun):
    status = a.wait(lambda status: status["mode"] == "paired" and status["pending"] < 4)
    asker.wait(5)
    asker.end()
    most = time.monotonic() - begun + 3
    dropped = [sum("was dropped" in line and kind in line for line in a.said().splitlines())
               for kind in ("connection", "message")]
    wrong = [asker.wrong(), "another session" if status["session"] != session else None,
             f"{dropped} lines of the log in {most:.0f} s" if max(dropped) > most else None,
             None if b.status()["full"] else "the standby lost its image"]
    return "; ".join(one for one in wrong if one) or None


def main():
    reader = argparse.ArgumentParser(description=__doc__, formatter_class=argparse.RawDescriptionHelpFormatter)
    reader.add_argument("count", type=int)
    reader.add_argument("--seed", type=int, default=1)
    asked = reader.parse_args()
    with tempfile.TemporaryDirectory() as room:
        begun = time.monotonic()
        said, wrong = play(room, asked.count, asked.seed)
        kinds = ", ".join(f"{count} {kind}" for kind, count in said.items())
        print(f"{sum(said.values())} messages in {time.monotonic() - begun:.0f} s ({kinds}): {wrong or 'right'}")
    return wrong is not None


if __name__ == "__main__":
    sys.exit(main())
