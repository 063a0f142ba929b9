"""What the gate's tests of ocf:remus:pair (cluster/pair) share: a host with stand-ins of the daemon and of Pacemaker's tools
(tests/stand_ins), what stands there, and counted expectations."""
import json
import os
import re
import signal
import socket
import sys
import tempfile
import threading
import time
import traceback
from collections.abc import Callable
from importlib.machinery import SourceFileLoader
from pathlib import Path

ROOT = Path(__file__).resolve().parents[1]
AGENT, STAND_INS = ROOT / "cluster" / "pair", ROOT / "tests" / "stand_ins"
sys.dont_write_bytecode = True
sys.path.insert(0, str(ROOT / "cluster"))
STAND_IN = SourceFileLoader("stand_in", str(STAND_INS / "daemon")).load_module()
Host, listen, serve = STAND_IN.Host, STAND_IN.listen, STAND_IN.serve

from agent.actions import main as main_of_agent
from agent.ocf import MOST_REASON

SUCCESS, GENERIC, UNIMPLEMENTED, INSTALLED, NOT_RUNNING, PROMOTED, DEGRADED = 0, 1, 3, 5, 7, 8, 190
CLONE = {"clone_max": "2", "notify": "true", "promoted_max": "1", "clone_node_max": "1"}

STANDBY = {"role": "standby", "full": True, "life": "life1", "generation": 4}
FILLING_STANDBY = {**STANDBY, "full": False, "link": "up"}
ALONE = {"role": "live", "mode": "alone", "full": True, "life": "life1", "generation": 4}
PEER = {"address": "10.1.0.2:7000", "name": "h2", "instance": "there1", "role": "standby", "successor": None}
PAIRED = {**ALONE, "mode": "paired", "link": "up", "peer": PEER}
FROZEN = {**ALONE, "role": "frozen"}
FROZEN_PAIRED = {**PAIRED, "role": "frozen", "link": "down"}
KEPT = {**PAIRED, "role": "frozen"}  # by a host that has handed its guest on, and whose standby isn't live yet
STALLED = {**PAIRED, "unacknowledged_ms": 2100}
FOLLOWED = {"peer": {**PEER, "successor": "there2"}}
LIFE = ["pair-life", "life1:3"]
PEER_STOPPED = {"notify_type": "post", "notify_operation": "stop", "notify_stop_uname": "h2"}
DEMOTE_ANNOUNCED = {"notify_type": "pre", "notify_operation": "demote", "notify_demote_uname": "h1", "on_node": "h1"}
PEER_PROMOTED = {"notify_type": "post", "notify_operation": "promote", "notify_promote_uname": "h2"}


class Trial:
    """A host with stand-ins, and what the agent did there."""

    def __init__(self, begins: dict | None = None, properties: list = (), score: str | None = None, given_up: dict | None = None,
                 broken: list = (), settings: str = "", clone: dict | None = None, state: str | None = None, then: str | None = None,
                 elsewhere: str | None = None) -> None:
        """`elsewhere` is the score that the other node, h2, has published."""
        self.room = tempfile.TemporaryDirectory(prefix="agent")
        self.folder = Path(self.room.name)
        self.control, self.config, self.cluster = self.folder / "control", self.folder / "host.toml", self.folder / "cluster"
        self.begins = begins or {}
        self.config.write_text(f'control = "{self.control}"\nbegins = \'{json.dumps(self.begins)}\'\n{settings}')
        for name in ("tools", "cluster/properties", "cluster/given_up", "cluster/pair-wrong", "cluster/broken"):
            (self.folder / name).mkdir(parents=True)
        for name in ("crm_attribute", "cibadmin", "attrd_updater", "crm_mon", "crm_node"):
            (self.folder / "tools" / name).symlink_to(STAND_INS / "pacemaker")
        for name, value in properties:
            with open(self.cluster / "properties" / name, "a") as file:
                file.write(value + "\n")
        for name, value in [("score", score), ("state", state), ("next", then), ("score.h2", elsewhere),
                            *((f"broken/{name}", "") for name in broken),
                            *((f"given_up/{node}", value) for node, value in (given_up or {}).items())]:
            if value is not None:
                (self.cluster / name).write_text(value + "\n")
        self.clone = CLONE if clone is None else clone
        self.environment = {"PATH": f"{self.folder}/tools:/usr/bin:/bin", "STAND_IN": str(self.cluster),
                            "REMUS_RUN": str(self.folder / "run"), "OCF_RESOURCE_INSTANCE": "pair:0", "OCF_RESKEY_config": str(self.config),
                            "OCF_RESKEY_program": str(STAND_INS / "daemon"), "OCF_RESKEY_log": str(self.folder / "log")}
        self.reason = ""

    def __enter__(self):
        return self

    def __exit__(self, *_):
        for pid in self.processes():
            os.kill(pid, signal.SIGKILL)
        self.ask(do="end")
        self.room.cleanup()

    def note(self):
        return json.loads((self.folder / "run" / "pair.started").read_text())

    def processes(self):
        """The daemon that the agent started, while it runs."""
        try:
            pid = self.note()["pid"]
            return [pid] if str(self.config).encode() in Path(f"/proc/{pid}/cmdline").read_bytes() else []
        except OSError:
            return []

    def act(self, action, parameters=None, **meta):
        """Runs the agent, as a process of its own that has it loaded already."""
        environment = {**self.environment, **{f"OCF_RESKEY_{name}": value for name, value in (parameters or {}).items()}}
        for name, value in {**self.clone, "on_node": "h1", **meta}.items():
            environment[f"OCF_RESKEY_CRM_meta_{name}"] = value
        said = [self.folder / "output", self.folder / "errors"]
        child = os.fork()
        if child == 0:
            for number, path in enumerate(said, 1):
                os.dup2(os.open(path, os.O_CREAT | os.O_WRONLY | os.O_TRUNC), number)
            os.environ.clear()
            os.environ.update(environment)
            code = GENERIC
            try:
                code = main_of_agent(action.split())
            except Exception:
                traceback.print_exc()
            finally:
                sys.stdout.flush()
                sys.stderr.flush()
                os._exit(code)
        self.child = child
        code = os.waitstatus_to_exitcode(os.waitpid(child, 0)[1])
        self.output, self.errors = (path.read_text() for path in said)
        found = re.search(r"(?m)^ocf-exit-reason:(.*)$", self.errors)
        self.reason = found[1] if found else ""
        if len(self.reason.encode()) > MOST_REASON:
            expect(f"{action}: Pacemaker shows all of its reason", self.reason, self.reason.encode()[:MOST_REASON].decode(errors="ignore"))
        return code

    def killed(self, action: str, when: Callable[[], bool]) -> None:
        """Runs the agent, and kills it once that is so."""
        running = threading.Thread(target=self.act, args=(action,))
        running.start()
        while not when():
            time.sleep(0.01)
        os.kill(self.child, signal.SIGKILL)
        running.join()

    def daemon(self):
        """A daemon that somebody else started: a thread of this test."""
        listener = listen(str(self.control))
        threading.Thread(target=serve, args=(listener, Host(self.begins)), daemon=True).start()
        return self

    def ask(self, **fields):
        with socket.socket(socket.AF_UNIX) as link:
            link.settimeout(2)
            try:
                link.connect(str(self.control))
                link.sendall(json.dumps(fields).encode() + b"\n")
                return json.loads(link.makefile().readline() or "null")
            except (FileNotFoundError, ConnectionError, TimeoutError):
                return None

    def status(self):
        return self.ask(do="status")

    def calls(self):
        return [call[0] for call in self.status()["calls"]]

    def value(self, name):
        try:
            return (self.cluster / name).read_text().strip()
        except FileNotFoundError:
            return None

    def life(self):
        return self.value("properties/pair-life")

    def score(self):
        return self.value("score")

    def given_up(self):
        return {path.name: path.read_text().strip() for path in (self.cluster / "given_up").iterdir()}

    def wrong(self) -> str | None:
        """What this node's attribute says is wrong here."""
        return self.value("pair-wrong/h1")

    def written(self):
        return (self.value("calls") or "").splitlines()


def shown(active=("h1", "h2"), managed="true", unclean="false", pending="false", others=("h2",)):
    """What crm_mon shows, as Pacemaker 2.1.5 writes it, of what the agent reads."""
    nodes = '<node name="h1" online="true" pending="false" unclean="false"/>' + "".join(
        f'<node name="{name}" online="true" pending="{pending}" unclean="{unclean}"/>' for name in others)
    instances = "".join(f'<resource id="pair" active="true" managed="{managed}"><node name="{name}"/></resource>' for name in active)
    fence = '<resource id="fence-h1" active="true" managed="true"><node name="h2"/></resource>'
    return (f'<pacemaker-result><nodes>{nodes}</nodes><resources>{fence}<clone id="pair-clone">{instances}</clone></resources>'
            '</pacemaker-result>')


counted = {"passed": 0, "failed": 0}


def expect(what: str, came: object, wanted: object) -> None:
    """The same, or a text in which a pattern is found."""
    is_so = came == wanted or (isinstance(wanted, re.Pattern) and isinstance(came, str) and wanted.search(came) is not None)
    counted["passed" if is_so else "failed"] += 1
    if not is_so:
        print(f"{what}: {came!r}, not {wanted!r}")


def summary() -> int:
    """Prints the last line, and answers the exit status."""
    print(f"{counted['passed']} passed, {counted['failed']} failed")
    return 1 if counted["failed"] else 0
