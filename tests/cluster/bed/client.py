"""A client of the guest, in its network. It prints a line with its first answer, goes on until SIGTERM, waits for what it has asked over a
connection, and prints one JSON object.

    client.py ping          asks for an echo each 20 ms
    client.py count         asks the web server for /count over one connection, one question after the other
    client.py big           asks the web server for /big, each time over a new connection
    client.py udp           asks the counter of port 7 each 20 ms
    client.py curl          has curl write a row into the database's table again and again, each time over a new connection
    client.py bank          makes transfers between accounts of the database by eight connections, as tests/bank does

`pauses` are the times without an answer of 0.25 s and more, each with when it began; `wrong` what must never come."""
import json
import os
import signal
import socket
import struct
import subprocess
import sys
import threading
import time
from pathlib import Path

sys.path.insert(0, str(Path(__file__).resolve().parents[3]))
from tests.served import big
from tests.sql.transfers import Bank, at_once

GUEST, EVERY, LONG = "10.0.0.1", 0.02, 0.25
PATIENCE = 20  # seconds after SIGTERM, for what was asked
STEP = 0.01  # seconds from one point of the curve to the next
going = [True]


class Told:
    """What the client was told, and when."""

    def __init__(self):
        self.answers, self.pauses, self.wrong, self.last = 0, [], [], None
        self.bytes, self.curve = 0, []  # what came in all, and how much of it had come at a time

    def came(self, now, count=0):
        self.answers += 1
        if self.answers == 1:
            print("begun", flush=True)
        self.bytes += count
        if not self.curve or now - self.curve[-1][0] >= STEP:
            self.curve.append((round(now, 3), self.bytes))
        if self.last is not None and now - self.last >= LONG:
            self.pauses.append((round(self.last, 3), round(now - self.last, 3)))
        self.last = now

    def say(self, **more):
        silent = round(time.time() - self.last, 3) if self.last else None
        print(json.dumps({"answers": self.answers, "pauses": self.pauses, "wrong": self.wrong[:20], "silent": silent, **more}), flush=True)


def checksum(data):
    total = sum(struct.unpack(f"!{len(data) // 2}H", data))
    total = (total & 0xffff) + (total >> 16)
    return ~(total + (total >> 16)) & 0xffff


def each(told, ask, answer, link):
    """Asks each 20 ms, and takes answers meanwhile."""
    number, due = 0, time.time()
    while going:
        number += 1
        try:
            link.send(ask(number))
        except OSError:
            pass
        due = max(due + EVERY, time.time())
        while going and (left := due - time.time()) > 0:
            link.settimeout(left)
            try:
                data = link.recv(2048)
            except OSError:
                time.sleep(max(0, min(left, due - time.time())))
                break
            if answer(data, number):
                told.came(time.time())


def ping(told):
    link = socket.socket(socket.AF_INET, socket.SOCK_RAW, socket.IPPROTO_ICMP)
    link.connect((GUEST, 0))
    mark = os.getpid() & 0xffff

    def ask(number):
        head = struct.pack("!BBHHH", 8, 0, 0, mark, number & 0xffff)
        return head[:2] + struct.pack("!H", checksum(head)) + head[4:]

    each(told, ask, lambda data, number: data[20] == 0 and data[24:26] == struct.pack("!H", mark), link)


def udp(told):
    """The numbers rise: none goes back, and none comes twice. (Nothing on the way here changes their order.)"""
    link = socket.socket(socket.AF_INET, socket.SOCK_DGRAM)
    link.connect((GUEST, 7))
    highest, first = [0], []

    def answer(data, number):
        value = int(data)
        if not first:
            first.append(value)
        if value <= highest[0]:
            told.wrong.append(f"{value} after {highest[0]}")
        highest[0] = max(highest[0], value)
        return True

    each(told, lambda number: b"%d" % number, answer, link)
    return {"highest": highest[0], "first": first[0] if first else None}


def request(path):
    return f"GET {path} HTTP/1.1\r\nHost: {GUEST}\r\nConnection: keep-alive\r\n\r\n".encode()


def connect():
    link = socket.create_connection((GUEST, 80), PATIENCE)
    link.setsockopt(socket.IPPROTO_TCP, socket.TCP_NODELAY, 1)
    link.settimeout(0.5)
    return link


def receive(link, told):
    """The whole answer. One that hasn't come so long after SIGTERM is wrong."""
    text, end = b"", None
    while (length := length_of(text)) is None or len(text) < length:
        if not going:
            end = end or time.time() + PATIENCE
            if time.time() > end:
                raise TimeoutError("no answer came")
        try:
            more = link.recv(65536)
        except TimeoutError:
            continue
        if not more:
            raise ConnectionResetError("the server closed it")
        told.came(time.time(), len(more))
        text += more
    return text


def length_of(text):
    """How long an answer is, once its head is here; None before."""
    head, end, _ = text.partition(b"\r\n\r\n")
    if not end:
        return None
    for line in head.split(b"\r\n"):
        name, _, value = line.partition(b":")
        if name.lower() == b"content-length":
            return len(head) + 4 + int(value)
    raise ValueError(f"no length: {head!r}")


def count(told):
    """Each answer must be the one before and one more: none is lost, and none is given twice."""
    last, link, values = None, None, 0
    while going:
        try:
            link = link or connect()
            link.sendall(request("/count"))
            value = int(receive(link, told).partition(b"\r\n\r\n")[2])
            if last is not None and value != last + 1:
                told.wrong.append(f"{value} after {last}")
            last, values = value, values + 1
            time.sleep(0.005)
        except OSError as error:
            told.wrong.append(f"{error} at {time.time():.3f}")
            link, last = None, None
    return {"values": values}


def downloads(told):
    wanted, done = big(), 0
    while going:
        try:
            link = connect()
            link.sendall(request("/big"))
            text = receive(link, told)
            link.close()
            if text.partition(b"\r\n\r\n")[2] != wanted:
                told.wrong.append("a download differs")
            done += 1
        except OSError as error:
            told.wrong.append(f"{error} at {time.time():.3f}")
    return {"downloads": done, "curve": told.curve}


def asked(statement):
    """What the database answers to curl: the rows of the first result."""
    ran = subprocess.run(["curl", "-sS", "-m", "60", "-H", "Accept: application/json", "-d", statement, f"http://{GUEST}/sql"],
                         capture_output=True, text=True, start_new_session=True)
    try:
        return json.loads(ran.stdout)["results"][0].get("rows")
    except (ValueError, KeyError):
        raise OSError(f"curl {ran.returncode}: {ran.stdout} {ran.stderr}") from None


def curl(told):
    """Each answer is the number of the row that was written: it must be the one before and one more."""
    last = None
    asked("CREATE TABLE IF NOT EXISTS curled(number INTEGER PRIMARY KEY)")
    while going:
        try:
            [[number]] = asked("INSERT INTO curled DEFAULT VALUES RETURNING number")
            if last is not None and number != last + 1:
                told.wrong.append(f"row {number} after {last}")
            last = number
            told.came(time.time())
        except OSError as error:
            told.wrong.append(f"{error} at {time.time():.3f}")
    return {"rows": last}


def bank(told):
    """An answer is a transfer that was acknowledged to any of the eight."""
    bank, lock = Bank(5432, address=GUEST, between=0), threading.Lock()

    def act(client, name, transfer):
        is_made = at_once(client, name, transfer)
        with lock:
            told.came(time.time())
        return is_made

    playing = threading.Thread(target=bank.play, args=(3600, 8, act))
    playing.start()
    while going:
        time.sleep(0.02)
    while playing.is_alive():
        bank.until = 0
        playing.join(0.05)
    told.wrong += bank.check(bank.surely)
    return {"acknowledged": len(bank.acknowledged), "stored": bank.stored, "unknown": len(bank.unknown), "refused": len(bank.refused),
            "reads": bank.reads, "longest": round(max(bank.waits, default=0), 3), "faults": bank.faults[:5]}


def ready():
    """Whether the guest answers, on the web server's port or the counter's, within a second."""
    for kind, port in ((socket.SOCK_STREAM, 80), (socket.SOCK_DGRAM, 7)):
        with socket.socket(socket.AF_INET, kind) as link:
            link.settimeout(0.5)
            try:
                link.connect((GUEST, port))
                if kind == socket.SOCK_STREAM or link.send(b"ready") and link.recv(100):
                    return True
            except OSError:
                pass
    return False


def main(kind):
    if kind == "ready":
        return 0 if ready() else 1
    signal.signal(signal.SIGTERM, lambda *_: going.clear())
    told = Told()
    more = {"ping": ping, "udp": udp, "count": count, "big": downloads, "curl": curl, "bank": bank}[kind](told)
    told.say(**(more or {}))
    return 0


if __name__ == "__main__":
    sys.exit(main(sys.argv[1]))
