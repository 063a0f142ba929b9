"""Whether Pacemaker runs at this host: it has to hear of what is done by hand, or it undoes it."""
import os
from pathlib import Path

MOVES = ("promote", "drain", "demote")  # verbs after which another host may be live than Pacemaker knows of


def pacemaker_runs(proc: Path = Path("/proc")) -> bool:
    for entry in os.listdir(proc):
        try:
            if entry.isdigit() and (proc / entry / "comm").read_text() == "pacemakerd\n":
                return True
        except OSError:
            pass  # it has just ended
    return False


def warning(verb: str) -> str | None:
    """What an operator is to do after a verb, where Pacemaker runs."""
    if verb not in MOVES or not pacemaker_runs():
        return None
    return ("Pacemaker runs here, and doesn't know of this yet: before the pair is managed again, "
            "'crm_resource --refresh --resource pair' tells it which host is live (docs/CLUSTER.md)")
