"""A host that hands its guest on keeps it, frozen, and has another node beside it, the heir: so that it is the standby of the host that
goes on, at once, with no full checkpoint sent. The one goes live and protects at the last checkpoint; here the guest, which stands there,
goes alone and protects, twice. These are one primary (docs/NODES.md), so the full checkpoint is had from the node that stands here."""
import threading
from collections.abc import Callable

from host.log.recovery import committed, feed_all, full_text
from host.making import Making
from host.node import Node, NodeEnded, Refused

TURNS = b"alone", b"protect", b"alone", b"protect"


class Heir(threading.Thread):
    """The other node, which waits for the generation after next, made on a thread of its own. `wrong` is why it can't be had."""

    def __init__(self, host: "Daemon") -> None:
        super().__init__(name="heir", daemon=True)
        self.command, self.state = host.settings.node, host.state
        self.life, self.shape, self.generation = host.life, host.shape, host.live.generation + len(TURNS) // 2
        self.node: Node | None = None
        self.wrong: str | None = None
        self.is_done = False

    def run(self) -> None:
        try:
            self.node = Node(self.command)
            self.node.ask(f"standby {self.shape[0]} {self.shape[1]} {self.generation}")
            self.state.keep(self.life, self.generation, "held")
        except (NodeEnded, Refused, OSError) as error:
            self.wrong = str(error)
        self.is_done = True

    @property
    def is_ready(self) -> bool:
        return self.is_done and self.wrong is None

    def close(self) -> None:
        """It isn't wanted any more."""
        self.join()
        if self.node is not None:
            self.node.close()

    def follow(self, node: Node, told: Callable[[], None]) -> "Following":
        """What fills it with the guest that stands in this node. Raises Refused, and then it isn't begun."""
        for answer in node.tell(*TURNS):
            answer.checked()
        return Following(node, self, told)


class Following(Making):
    """Fills an heir. Where a log is kept no base is written: the later generation stands on the earlier one's log."""
    wrong, is_hurried = "no base is written", True

    def __init__(self, node: Node, heir: Heir, told: Callable[[], None]) -> None:
        super().__init__(node, heir.generation, told)
        self.made, self.pages = heir.node, heir.shape[0]

    def make(self) -> None:
        feed_all(self.made, full_text(self.node, self.pages))
        committed(self.made.ask("commit"), self.generation, 0)
        self.node.close()
