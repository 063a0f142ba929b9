"""Clients of the database guest who make transfers through all that befalls the hosts: at the end each one that was acknowledged must be
there, none twice, and the balances must be those of the transfers (tests/sql/transfers.py)."""
import threading
import time

from tests.served import free_port
from tests.sql.transfers import Bank, at_once
from tests.sql.two_hosts import Line

CLIENTS = 4
FOR_EVER = 1e9  # seconds


class Teller:
    """What a site asks of its client. `numbers` has the transfers that were acknowledged."""

    def __init__(self, *hosts: object) -> None:
        port = free_port()
        self.line, self.bank = Line([(port, 5432, False)], *hosts), Bank(port)
        self.thread = threading.Thread(target=self.bank.play, args=(FOR_EVER, CLIENTS, at_once), daemon=True)

    def start(self) -> None:
        self.line.start()
        self.thread.start()

    @property
    def numbers(self) -> list[str]:
        return list(self.bank.acknowledged)

    def wait(self, more: int, patience: float = 60.0) -> None:
        """Waits for so many more transfers. Raises TimeoutError."""
        wanted, end = len(self.bank.acknowledged) + more, time.monotonic() + patience
        while len(self.bank.acknowledged) < wanted:
            if time.monotonic() > end:
                raise TimeoutError(f"{len(self.bank.acknowledged)} transfers were acknowledged, and no more; {self.bank.faults[-3:]}")
            time.sleep(0.01)

    def wrong(self) -> str | None:
        return "; ".join(self.bank.wrong) or None

    def judged(self) -> str | None:
        """What is wrong in the database itself, once nobody asks it any more."""
        self.bank.until = 0
        self.thread.join(120)
        return "; ".join(self.bank.check(self.bank.surely)) or None

    def end(self) -> None:
        self.bank.until = 0
        self.line.end()
