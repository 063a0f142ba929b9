"""Two hosts and a client as network namespaces of this machine, joined by veth and bridges; for root. Each host has an interface of the
link's network, 10.1.0.1 or 10.1.0.2, and a bridge br0 on the guest's network, where the client is 10.0.0.2."""
import ctypes
import os
import re
import subprocess
from pathlib import Path

from host import keys
from host.started import Host

NEW_NETWORK = 0x40000000  # CLONE_NEWNET
CLIENT, GUEST = "10.0.0.2", "10.0.0.1"
PORT = 7000


def ip(*words, check=True):
    return subprocess.run(["ip", *map(str, words)], check=check, capture_output=True, text=True)


def cannot():
    """Why there can be no namespaces here, or None."""
    if os.geteuid() != 0:
        return "it takes root"
    if not os.path.exists("/dev/net/tun"):
        return "there is no /dev/net/tun"
    name = f"remus{os.getpid()}try"
    try:
        made = ip("netns", "add", name, check=False)
        tried = ip("-n", name, "link", "add", "br0", "type", "bridge", check=False)
        ip("netns", "del", name, check=False)
    except FileNotFoundError:
        return "there is no ip (Debian's iproute2)"
    wrong = made.stderr or tried.stderr
    return f"namespaces can't be made here ({wrong.strip()})" if wrong else None


def of_this_run(kind: str) -> str:
    """The beginning of the names of namespaces that this process makes, so that two runs at once have different ones. Those that runs left
    which were killed are deleted."""
    there = os.listdir("/run/netns") if os.path.isdir("/run/netns") else []
    for name in there:
        found = re.fullmatch(re.escape(kind) + r"(\d+)-\w+", name)
        if found and not os.path.exists(f"/proc/{found[1]}"):
            ip("netns", "del", name, check=False)
    return f"{kind}{os.getpid()}-"


class Networks:
    """The namespaces of one pair: a switch, two hosts, and a client."""

    def __init__(self, prefix):
        self.switch, self.client = f"{prefix}sw", f"{prefix}cl"
        self.hosts = [f"{prefix}h1", f"{prefix}h2"]
        self.all = [self.switch, self.client, *self.hosts]

    def __enter__(self):
        try:
            self.make()
        except subprocess.CalledProcessError as error:
            self.__exit__()
            raise OSError(None, f"{' '.join(error.cmd)}: {error.stderr.strip()}") from None
        return self

    def make(self):
        for name in self.all:
            ip("netns", "del", name, check=False)  # one that a run left which was killed
            ip("netns", "add", name)
            ip("-n", name, "link", "set", "lo", "up")
        for bridge in ("links", "guests"):
            ip("-n", self.switch, "link", "add", "name", bridge, "type", "bridge")
            ip("-n", self.switch, "link", "set", bridge, "up")
        self.plug("c", "guests", self.client, "eth0")
        ip("-n", self.client, "addr", "add", f"{CLIENT}/24", "dev", "eth0")
        ip("-n", self.switch, "addr", "add", "10.1.0.9/24", "dev", "links")
        for number, name in enumerate(self.hosts, 1):
            self.plug(f"l{number}", "links", name, "eth0")
            self.plug(f"g{number}", "guests", name, "eth1")
            ip("-n", name, "addr", "add", f"10.1.0.{number}/24", "dev", "eth0")
            ip("-n", name, "link", "add", "br0", "type", "bridge")
            ip("-n", name, "link", "set", "eth1", "master", "br0")
            ip("-n", name, "link", "set", "br0", "up")

    def plug(self, port, bridge, namespace, interface):
        """An interface of a namespace, at a port of a bridge of the switch."""
        ip("-n", self.switch, "link", "add", port, "type", "veth", "peer", "name", interface, "netns", namespace)
        ip("-n", self.switch, "link", "set", port, "master", bridge, "up")
        ip("-n", namespace, "link", "set", interface, "up")

    def set(self, port, state):
        """Pulls a plug of the switch, or puts it in: state is down or up."""
        ip("-n", self.switch, "link", "set", port, state)

    def __exit__(self, *_):
        for name in self.all:
            ip("netns", "del", name, check=False)


def pair(folder, networks, guest, through=False, **settings):
    """Two hosts in their namespaces. With `through`, each dials the switch, where a proxy is to stand."""
    made = []
    for name in "ab":
        keys.make(folder, name)
    for place, (name, other) in enumerate(("ab", "ba")):
        peer = f"10.1.0.9:{PORT + 1 + place}" if through else f"10.1.0.{2 - place}:{PORT}"
        made.append(Host(folder, name, networks.hosts[place], guest=str(guest), listen=f"10.1.0.{1 + place}:{PORT}", peer=peer,
                         key=str(Path(folder) / f"{name}.key"), certificate=str(Path(folder) / f"{name}.crt"),
                         peer_certificate=str(Path(folder) / f"{other}.crt"), bridge="br0", guest_address=GUEST, **settings))
    return made


def enter(namespace):
    """The calling thread is in the namespace from now on: the sockets that it opens are of its network."""
    handle = os.open(f"/run/netns/{namespace}", os.O_RDONLY)
    libc = ctypes.CDLL(None, use_errno=True)
    if libc.setns(handle, NEW_NETWORK) != 0:
        raise OSError(ctypes.get_errno(), "setns")
    os.close(handle)
