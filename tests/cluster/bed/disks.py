"""What lies on the hosts' disks: the package, installed by dpkg, and the configuration of the daemon, Corosync and Pacemaker."""
import json
import os
import re
import shutil
import subprocess
import xml.etree.ElementTree as xml
from pathlib import Path

from bed import network

ROOT = Path(__file__).resolve().parents[3]
HERE = Path(__file__).resolve().parent
PARTS = ("usr", "etc", "var")
ALARM = '#!/bin/sh\necho "$1" >>/var/log/alarms\n'  # what the alert of the pair tells its sentences
DC_SECONDS = 2  # how long the first node waits for another one's word; Pacemaker's 20 s are for machines that boot slowly


def package(folder, program, version=None):
    """The package of this tree for this machine; with another version where one is given."""
    words = [ROOT / "packaging/deb/build", "--unreleased", "--output", folder, *(["--program", program] if program else [])]
    # Of those that are made this machine's comes first.
    made = Path(subprocess.run(words, check=True, capture_output=True, text=True).stdout.splitlines()[0])
    return made if version is None else renamed(made, version)


def renamed(made, version):
    """The same package under a later version, as an upgrade has it."""
    tree = made.parent / "tree"
    shutil.rmtree(tree, ignore_errors=True)
    subprocess.run(["dpkg-deb", "-R", made, tree], check=True)
    control = tree / "DEBIAN" / "control"
    control.write_text(re.sub(r"(?m)^Version: .*$", f"Version: {version}", control.read_text()))
    (tree / "usr/lib/remus/VERSION").write_text(version + "\n")
    later = made.parent / f"remus_{version}_{made.stem.rpartition('_')[2]}.deb"
    subprocess.run(["dpkg-deb", "--root-owner-group", "--build", tree, later], check=True, stdout=subprocess.DEVNULL)
    shutil.rmtree(tree)
    return later


def corosync(token):
    """The recommended file with this test's addresses, one ring, and the token."""
    text = (ROOT / "cluster/corosync.conf").read_text()
    text = re.sub(r"\n *ring1_addr:.*", "", text)
    for host, address in network.ADDRESS.items():
        text = re.sub(rf"(name: {host}\n.*\n *ring0_addr: ).*", rf"\g<1>{address}", text)
    text = re.sub(r"token: \d+", f"token: {token}", text)
    if token < 1000:
        text = re.sub(r"\n    # (interface \{|    \w+: \d+|\})(?=\n)", r"\n    \1", text)
    text = re.sub(r"to_syslog: yes", "to_syslog: no\n    to_logfile: yes\n    logfile: /var/log/corosync.log", text)
    return text + "\nsystem {\n    move_to_root_cgroup: no\n}\n"


def configuration(delay, switch):
    """The recommended configuration of the pair, with the test's own switch as fence device, the delay that it needs, and no long waits for
    nodes that boot."""
    root = xml.fromstring((ROOT / "cluster/remus.xml").read_text())
    for device in root.findall("./resources/primitive[@class='stonith']"):
        device.set("type", "fence_bed")
        attributes = device.find("instance_attributes")
        for pair in list(attributes):
            if not pair.get("name").startswith("pcmk_"):
                attributes.remove(pair)
        xml.SubElement(attributes, "nvpair", id=device.get("id") + "-path", name="path", value=str(switch))
    options = root.find("./crm_config/cluster_property_set")
    options.find("./nvpair[@name='priority-fencing-delay']").set("value", delay)
    xml.SubElement(options, "nvpair", id="opt-dc", name="dc-deadtime", value=f"{DC_SECONDS}s")
    xml.SubElement(root.find("./alerts/alert"), "recipient", id="told", value="/usr/sbin/note_alarm")
    for number, host in enumerate(network.NUMBERS, 1):
        xml.SubElement(root.find("nodes"), "node", id=str(number), uname=host)
    whole = xml.Element("cib", {"crm_feature_set": "3.16.1", "validate-with": "pacemaker-3.9", "epoch": "1", "num_updates": "0",
                                "admin_epoch": "1"})
    whole.extend([root, xml.Element("status")])
    return xml.tostring(whole, encoding="unicode")


def write(path, content, mode=0o644):
    path.parent.mkdir(parents=True, exist_ok=True)
    path.write_bytes(content if isinstance(content, bytes) else content.encode())
    path.chmod(mode)


def daemon(host, node, guest):
    other = next(one for one in network.NUMBERS if one != host)
    told = {"name": host, "guest": "/etc/remus/guest.sim",
            "listen": f"{network.ADDRESS[host]}:7000", "peer": f"{network.ADDRESS[other]}:7000",
            "key": f"/etc/remus/{host}.key", "certificate": f"/etc/remus/{host}.crt", "peer_certificate": f"/etc/remus/{other}.crt",
            "bridge": "br0", "guest_address": "10.0.0.1", "steps_per_ms": guest.steps_per_ms, **({"node": node} if node else {})}
    return "".join(f"{name} = {json.dumps(value)}\n" for name, value in told.items())


def clear(folder):
    for host in network.NUMBERS:
        for part in PARTS:
            for name in (part, "work." + part):
                shutil.rmtree(folder / host / name, ignore_errors=True)


def install(folder, made):
    """Installs the package by dpkg on a disk of its own, in a mount namespace of its own."""
    disk = folder / "installed"
    script = "mount --make-rprivate / && " + " && ".join(
        f"mkdir -p {disk}/{part} {disk}/work.{part} && mount -t overlay {part} "
        f"-o lowerdir=/{part},upperdir={disk}/{part},workdir={disk}/work.{part} /{part}" for part in PARTS)
    subprocess.run(["unshare", "--mount", "sh", "-ec", f"{script} && dpkg -i {made} >/dev/null"], check=True, stdin=subprocess.DEVNULL,
                   env={**os.environ, "PATH": "/usr/sbin:/usr/bin:/sbin:/bin"})


def copy_installed(folder):
    """Both hosts' disks, with the package on them."""
    clear(folder)
    for host in network.NUMBERS:
        for part in PARTS:
            subprocess.run(["cp", "-a", folder / "installed" / part, folder / host / part], check=True)


def configure(folder, guest, node, token, delay):
    """Both hosts' files. The cluster's configuration is there before it first starts, as if an operator had loaded it the day before."""
    authkey = os.urandom(256)
    for host in network.NUMBERS:
        disk = folder / host
        write(disk / "usr/sbin/fence_bed", (HERE / "fence_bed").read_bytes(), 0o755)
        write(disk / "usr/sbin/note_alarm", ALARM, 0o755)
        write(disk / "var/log/alarms", "", 0o666)
        write(disk / "etc/hosts", "127.0.0.1 localhost\n" + "".join(f"{address} {name}\n" for name, address in network.ADDRESS.items()))
        write(disk / "etc/corosync/corosync.conf", corosync(token))
        write(disk / "etc/corosync/authkey", authkey, 0o400)
        write(disk / "etc/remus/guest.sim", guest.script.read_text())
        write(disk / "etc/remus/host.toml", daemon(host, node, guest))
        subprocess.run([ROOT / "remus-host", "keys", disk / "etc/remus", host], check=True, stdout=subprocess.DEVNULL)
        write(disk / "var/lib/pacemaker/cib/cib.xml", configuration(delay, folder / "power"), 0o600)
        for path in ("var/lib/pacemaker", "var/lib/pacemaker/cib"):
            shutil.copystat("/" + path, disk / path)
        subprocess.run(["chown", "-R", "hacluster:haclient", disk / "var/lib/pacemaker"], check=True)
    first, second = network.NUMBERS
    for host, other in ((first, second), (second, first)):
        shutil.copy(folder / other / f"etc/remus/{other}.crt", folder / host / "etc/remus")
