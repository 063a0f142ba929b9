"""The resource's parameters. A changed one restarts nothing: `stall` is taken at once, the others by the daemon's next
start, and a value that can't be taken changes nothing."""
import os
import re

from agent.daemon import Daemon
from agent.ocf import parameter, warn

STALL = "2"


def wrong_stall() -> str | None:
    """What is wrong with the parameter `stall`, if something is."""
    said = parameter("stall", STALL)
    if re.fullmatch(r"\d{1,4}(\.\d+)?", said, re.ASCII) and float(said) >= 0.5:
        return None
    return f"stall={said}: it must be a number of seconds, 0.5 at least"


def stall(beside: str) -> float:
    """The parameter; the last one that was right, where it is wrong."""
    return float(kept(beside) if wrong_stall() else parameter("stall", STALL))


def kept(beside: str) -> str:
    try:
        with open(beside + ".stall", encoding="utf-8") as file:
            return file.read()
    except OSError:
        return STALL


def keep(beside: str) -> None:
    """Notes a parameter that is right, for the time when it is changed to a wrong one."""
    try:
        os.makedirs(os.path.dirname(beside), mode=0o755, exist_ok=True)
        with open(beside + ".stall", "w", encoding="utf-8") as file:
            file.write(parameter("stall", STALL))
    except OSError as error:
        warn(f"{beside}.stall can't be written: {error}")


def wrong(daemon: Daemon) -> list[str]:
    """What the operator is to know of changed parameters, while the daemon runs."""
    found, runs_with = [], daemon.note().get("config", daemon.config)
    if why := wrong_stall():
        found.append(f"{why}; {kept(daemon.started)} is kept")
    if runs_with != daemon.config:
        found.append(f"remus-host runs with {runs_with}, and takes {daemon.config} at its next start")
    return found
