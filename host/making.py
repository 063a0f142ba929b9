"""A standby's node that is made of another one, on a thread of its own, while texts come for it."""
import threading
from collections.abc import Callable

from host.log.format import Rotten
from host.log.recovery import feed_many
from host.node import Node, NodeEnded, Refused


class Making(threading.Thread):
    """`node` is what it is made of, which may be known only later, and is closed in the end. `backlog` has the texts that came meanwhile, `failed` why there is none."""

    def __init__(self, node: Node | None, generation: int, told: Callable[[], None]) -> None:
        super().__init__(name="making", daemon=True)
        self.node, self.generation, self.told = node, generation, told
        self.made: Node | None = None
        self.failed: str | None = None
        self.backlog: list[bytes] = []
        self.is_done = False

    def make(self) -> None:
        """Makes it. Raises NodeEnded, Refused, Rotten."""
        raise NotImplementedError

    def begin_once(self) -> None:
        if self.ident is None:
            self.start()

    def run(self) -> None:
        try:
            self.make()
        except (NodeEnded, Refused, Rotten) as error:
            self.failed = str(error)
        self.is_done = True
        self.told()

    def finished(self) -> Node:
        """The node, once it has what came meanwhile. Raises NodeEnded."""
        self.begin_once()
        self.join()
        if self.failed is not None:
            raise NodeEnded(f"the node couldn't go on in generation {self.generation}: {self.failed}")
        try:
            feed_many(self.made, self.backlog, self.generation)
        except (Refused, Rotten) as error:
            raise NodeEnded(f"the node couldn't go on in generation {self.generation}: {error}") from None
        return self.made

    def leave(self) -> None:
        """What it makes isn't wanted any more; its first node is killed already."""
        if self.ident is not None:
            self.join(5.0)
        if self.made is not None:
            self.made.close()
