"""The one place that catches what nobody expected: a request, a task or a scrape that goes wrong ends no daemon, nor the guest with it."""
import traceback
from collections.abc import Callable
from pathlib import Path
from typing import TypeVar

from host.logs import Log
from host.node import NodeEnded

Found = TypeVar("Found")


def guarded(log: Log, what: str, act: Callable[[], Found], otherwise: Callable[[str], Found]) -> Found:
    """What `act` answers; where it goes wrong, that is logged with its cause, and `otherwise` is told why. A node that ended takes its host
    with it, whatever was asked."""
    try:
        return act()
    except NodeEnded:
        raise
    except Exception as error:
        why = cause(error)
        log.error(f"{what} went wrong by a mistake in remus-host: {why}")
        return otherwise(f"that went wrong by a mistake in remus-host, and its log has more: {why}")


def cause(error: Exception) -> str:
    """What was raised, and the places that led there, the last one first."""
    places = [f"{Path(frame.filename).name}:{frame.lineno}" for frame in reversed(traceback.extract_tb(error.__traceback__))]
    return f"{type(error).__name__}: {error} ({', '.join(places[:3])})"
