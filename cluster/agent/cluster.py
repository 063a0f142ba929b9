"""What the agent keeps in the cluster: this node's score, the guest's life, which standby is given up, and what is wrong at a node."""
import os
import re

from agent.life import SCORE_WAITS, Life, behind
from agent.ocf import GENERIC, Failure, meta, run

FALSE = ("false", "off", "no", "n", "0")


class Cluster:
    def __init__(self, resource: str) -> None:
        self.resource = resource
        self.life_name, self.given_up_name, self.wrong_name = resource + "-life", resource + "-given-up", resource + "-wrong"
        self.read: dict[str, list[str]] | None = None
        self.node = meta("on_node") or run("crm_node", "--name").stdout.strip() or os.uname().nodename

    def properties(self) -> dict[str, list[str]]:
        """The cluster's properties, each with all its values, as they were when this action first asked. Fails where they can't be read."""
        if self.read is None:
            self.read = self.read_properties()
        return self.read

    @staticmethod
    def read_properties() -> dict[str, list[str]]:
        read = run("cibadmin", "--query", "--local", "--scope", "crm_config")
        if read.returncode != 0 or "<crm_config" not in read.stdout:
            raise Failure(GENERIC, f"the cluster's properties can't be read: {read.stderr}")
        found: dict[str, list[str]] = {}
        for pair in re.findall(r"<nvpair\s[^>]*>", read.stdout):
            words = dict(re.findall(r'([\w-]+)="([^"]*)"', pair))
            found.setdefault(words.get("name", ""), []).append(words.get("value", ""))
        return found

    def life(self) -> Life | None:
        """The guest's life; None only where the property surely isn't there."""
        values = self.properties().get(self.life_name, [])
        if len(values) > 1:
            raise Failure(GENERIC, f"the cluster's property {self.life_name} is there {len(values)} times")
        return Life.read(values[0]) if values else None

    def write_life(self, life: Life) -> None:
        """Never an earlier generation than is there: what a stale host says would win over the guest that went on."""
        if why := behind(life, self.life()):
            raise Failure(GENERIC, why)
        self.read = None
        wrote = run("crm_attribute", "--type", "crm_config", "--name", self.life_name, "--update", str(life))
        if wrote.returncode != 0:
            raise Failure(GENERIC, f"the cluster's property {self.life_name} can't be written: {wrote.stderr}")

    def delete_life(self) -> None:
        self.read = None
        run("crm_attribute", "--type", "crm_config", "--name", self.life_name, "--delete")

    def unsafe(self) -> str | None:
        """Why a host that doesn't answer might not be fenced, if so."""
        properties = self.properties()
        for name in ("stonith-enabled", "startup-fencing"):
            if any(value.lower() in FALSE for value in properties.get(name, [])):
                return f"{name}=false: a host that doesn't answer might still run the guest"
        return None

    def has_stopped_elsewhere(self) -> bool:
        """Whether Pacemaker knows of each other node that no instance runs there: it stopped it, or the node is off, and surely so. Not
        where somebody else looks after the instances."""
        shown = run("crm_mon", "--one-shot", "--output-as=xml", seconds=5)
        if shown.returncode != 0:
            return False
        import xml.etree.ElementTree as xml  # only where it is wanted, as tomllib
        try:
            state = xml.fromstring(shown.stdout)
        except xml.ParseError:
            return False
        instances = [one for one in state.iterfind("./resources//resource") if one.get("id", "").partition(":")[0] == self.resource]
        active = {node.get("name") for one in instances for node in one.iterfind("node")}
        others = [node for node in state.iterfind("./nodes/node") if node.get("name") != self.node]
        are_surely_off = all((node.get("unclean"), node.get("pending")) == ("false", "false") and node.get("name") not in active
                             for node in others)
        return self.node in active and all(one.get("managed") == "true" for one in instances) and others != [] and are_surely_off

    def score_command(self) -> list[str]:
        return ["crm_attribute", "--promotion=" + self.resource, "--node", self.node, "--lifetime", "reboot"]

    def publish(self, score: int | None) -> None:
        """Sets this node's score, or takes it back. It is written only where it changes."""
        now = run(*self.score_command(), "--query", "--quiet").stdout.strip()
        if score is None and now:
            run(*self.score_command(), "--delete")
        elif score is not None and now != str(score):
            run(*self.score_command(), "--update", str(score))

    @staticmethod
    def attributes(name: str, *more: str) -> dict[str, str]:
        """By node: the attribute, where it has one."""
        asked = run("attrd_updater", "--name", name, "--query", "--all", *more)
        return dict(re.findall(r'host="([^"]*)" value="([^"]*)"', asked.stdout))

    def scores(self) -> dict[str, int]:
        """By node, where it has one."""
        return {node: int(score) for node, score in self.attributes("master-" + self.resource).items() if score.isdigit()}

    def best_score_elsewhere(self) -> int:
        """0 where no other node has one."""
        return max((score for node, score in self.scores().items() if node != self.node), default=0)

    def says_live(self) -> bool:
        """Whether this node's score is a live host's."""
        return self.scores().get(self.node, 0) >= SCORE_WAITS

    def give_up(self, instance: str) -> None:
        run("attrd_updater", "--name", self.given_up_name, "--node", self.node, "--update", instance, "--private")

    def keep(self) -> None:
        run("attrd_updater", "--name", self.given_up_name, "--node", self.node, "--delete", "--private")

    def given_up(self) -> list[str]:
        """The instances that any node has given up."""
        return list(self.attributes(self.given_up_name, "--private").values())

    def say_wrong(self, sentence: str) -> None:
        """Has this node's attribute say what is wrong here, which crm_mon shows."""
        if self.attributes(self.wrong_name).get(self.node) != sentence:
            run("attrd_updater", "--name", self.wrong_name, "--node", self.node, "--update", sentence)

    def say_nothing(self) -> None:
        run("attrd_updater", "--name", self.wrong_name, "--node", self.node, "--delete")
