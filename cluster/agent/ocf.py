"""What each part stands on: OCF's exit codes and parameters, and other programs."""
import os
import syslog

# CONFIGURED isn't among them: Pacemaker would stop each instance for it, the live one too, and what is wrong is so at one host, or can be
# mended while the guest runs. INSTALLED keeps the pair from one host alone.
SUCCESS, GENERIC, ARGUMENTS, UNIMPLEMENTED, PERMISSION, INSTALLED = range(6)
NOT_RUNNING, PROMOTED = 7, 8
DEGRADED = 190  # it runs, and something is wrong: Pacemaker shows it as a failure, and restarts nothing


MOST_REASON = 128  # bytes, of a reason that Pacemaker shows


class Failure(Exception):
    """An action that fails, with its exit code and the reason that Pacemaker shows: what is to be known first comes first."""

    def __init__(self, code: int, reason: str) -> None:
        self.code, self.reason = code, " ".join(reason.split())
        super().__init__(self.reason)


def told(reason: str) -> str:
    """A reason as Pacemaker is told it, which cuts a longer one off. All of it is in the system's log then."""
    if len(reason.encode()) <= MOST_REASON:
        return reason
    warn(reason)
    return reason.encode()[:MOST_REASON - 3].decode(errors="ignore").rpartition(" ")[0] + " .."


def parameter(name: str, default: str) -> str:
    return os.environ.get("OCF_RESKEY_" + name) or default


def meta(name: str) -> str:
    """What Pacemaker says of the clone or of the notification; empty where it says nothing."""
    return os.environ.get("OCF_RESKEY_CRM_meta_" + name, "").strip()


def warn(text: str) -> None:
    syslog.syslog(syslog.LOG_WARNING, text)


def run(*words: str, seconds: float = 15) -> "subprocess.CompletedProcess":
    """Runs another program. One that isn't there, or takes longer, has a status as a shell would tell it. It isn't told on which node it
    runs: attrd_updater would take that for the node that is asked about, and for all nodes too."""
    import subprocess  # only where it is wanted: a failover waits for a notification that runs nothing
    told = {name: value for name, value in os.environ.items() if not name.startswith("OCF_RESKEY_CRM_meta_")}
    try:
        return subprocess.run(words, stdin=subprocess.DEVNULL, capture_output=True, text=True, timeout=seconds, env=told)
    except FileNotFoundError:
        return subprocess.CompletedProcess(words, 127, "", f"{words[0]} isn't installed")
    except subprocess.TimeoutExpired:
        return subprocess.CompletedProcess(words, 124, "", f"{words[0]} took more than {seconds} s")
