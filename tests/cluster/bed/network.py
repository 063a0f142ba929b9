"""The networks: a switch with two bridges, one for the cluster and the link, one for the guest; and a client. Each is a namespace."""
import subprocess

SWITCH, CLIENT = "remus-switch", "remus-client"
WIRES = {"c": ("brc", "eth0"), "s": ("brs", "eth1")}  # a wire's letter: its bridge at the switch, its device at a host
NUMBERS = {"one": 1, "two": 2}
ADDRESS = {"one": "10.1.0.1", "two": "10.1.0.2"}


def ip(*words, check=True):
    return subprocess.run(["ip", *words], check=check, capture_output=True, text=True)


def namespace(host):
    return "remus-" + host


def up():
    down()
    for name in (SWITCH, CLIENT):
        ip("netns", "add", name)
        ip("-n", name, "link", "set", "lo", "up")
    for bridge, _ in WIRES.values():
        ip("-n", SWITCH, "link", "add", bridge, "type", "bridge")
        ip("-n", SWITCH, "link", "set", bridge, "up")
    ip("-n", SWITCH, "link", "add", "client", "type", "veth", "peer", "name", "eth0", "netns", CLIENT)
    ip("-n", SWITCH, "link", "set", "client", "master", "brs", "up")
    ip("-n", CLIENT, "addr", "add", "10.0.0.2/24", "dev", "eth0")
    ip("-n", CLIENT, "link", "set", "eth0", "up")


def down():
    for name in (SWITCH, CLIENT, *map(namespace, NUMBERS)):
        ip("netns", "del", name, check=False)


def plug_in(host):
    """A host's network, new from the start, and its wires."""
    ip("netns", "del", namespace(host), check=False)
    ip("netns", "add", namespace(host))
    for letter, (bridge, device) in WIRES.items():
        ip("-n", SWITCH, "link", "del", host + letter, check=False)
        ip("-n", SWITCH, "link", "add", host + letter, "type", "veth", "peer", "name", device, "netns", namespace(host))
        ip("-n", SWITCH, "link", "set", host + letter, "master", bridge, "up")
        ip("-n", namespace(host), "link", "set", device, "up")
    ip("-n", namespace(host), "link", "set", "lo", "up")
    ip("-n", namespace(host), "addr", "add", ADDRESS[host] + "/24", "dev", "eth0")
    ip("-n", namespace(host), "link", "add", "br0", "type", "bridge")
    ip("-n", namespace(host), "link", "set", "eth1", "master", "br0")
    ip("-n", namespace(host), "link", "set", "br0", "up")


def pull(host):
    """Both plugs of a host, so that nobody is told the end of a connection."""
    for letter in WIRES:
        ip("-n", SWITCH, "link", "set", host + letter, "down", check=False)


def split():
    ip("-n", SWITCH, "link", "set", "onec", "down", check=False)


def heal():
    """Whatever wire is there is in again."""
    for host in NUMBERS:
        for letter in WIRES:
            ip("-n", SWITCH, "link", "set", host + letter, "up", check=False)
