"""What may go live at a host, and which standby is given up: rules over what the daemon and the cluster say."""
from agent.ocf import GENERIC, Failure

FILLING_SECONDS = 60  # a standby that hasn't taken the full checkpoint by then is given up
# A live host that hears nothing of its standby may be one that was cut off and fenced by that: where both come together again Pacemaker has
# two promoted hosts, and keeps the one with the higher score.
SCORE_LIVE, SCORE_WAITS, SCORE_FULL, SCORE_KEPT, SCORE_FIRST = 200, 150, 100, 90, 5


class Life:
    """What the cluster's property says: `NAME:GENERATION`, the life of the guest and the last generation in which it was alone, so that a
    checkpoint must be of a later one; or `boot:NODE:INSTANCE`, while that instance at that node boots it: then the name is empty, and
    `booting` says who."""

    def __init__(self, name: str, generation: int, booting: str = "") -> None:
        self.name, self.generation, self.booting = name, generation, booting

    @staticmethod
    def read(text: str) -> "Life":
        name, _, generation = text.partition(":")
        if name == "boot" and generation:
            return Life("", 0, generation)
        if not name or not generation.isascii() or not generation.isdigit():
            raise Failure(GENERIC, f"the cluster's property that names the guest's life can't be understood: '{text}'")
        return Life(name, int(generation))

    def __str__(self) -> str:
        return f"boot:{self.booting}" if self.booting else f"{self.name}:{self.generation}"


def alone_in(status: dict) -> Life:
    """What the property has to say of a live guest: it was alone in this generation, or, if it has a standby, or lets nothing out that isn't
    in its host's own log, in the one before. The host that handed it on keeps it in an earlier generation, until it follows this one."""
    generation = status.get("stands_on") or status["generation"]
    is_protected = status["mode"] != "alone" or (status.get("log") or {}).get("protects", False)
    return Life(status["life"], generation - (1 if is_protected else 0))


def may_boot(status: dict, life: Life | None, booting: str) -> bool:
    """Whether the first guest may be booted at this host: none ever was, or this instance was about to, and was broken off before."""
    return status["role"] == "empty" and (life is None or life.booting == booting)


def why_not(status: dict, life: Life | None) -> str | None:
    """Why what stands at this host mustn't go live, if so."""
    if not status["full"]:
        return "no full checkpoint stands here"
    frozen = status["role"] == "frozen"
    if frozen and status["mode"] != "alone" and not keeps(status):
        return "the guest that was stopped here has a standby, which may have gone on"
    if life is None or not life.name:
        return None
    if life.name != status["life"]:
        return f"what stands here is of the life {status['life']}, and the cluster's guest is of {life.name}"
    if status["generation"] < life.generation + (0 if frozen else 1):
        return f"what stands here is of generation {status['generation']}, and the guest went on alone in {life.generation}"
    return None


def keeps(status: dict) -> bool:
    """Whether the guest stands here just as its standby has it, which isn't live: else it would say so over the link."""
    return status["role"] == "frozen" and status["link"] == "up" and status["peer"].get("role") == "standby"


def behind(true: Life, life: Life | None) -> str | None:
    """Why the property mustn't say this of a guest, if so: it went on in a later generation, at the other host."""
    if life is None or life.name != true.name or life.generation <= true.generation:
        return None
    return (f"what runs here is stale: it is of generation {true.generation}, and by the cluster's property the guest went on alone in "
            f"{life.generation}")


def stale(status: dict, life: Life | None) -> str | None:
    """Why a live host mustn't go on with its guest, if so."""
    return behind(Life(status["life"], status["generation"]), life)


def stalls(status: dict, seconds: float) -> bool:
    """Whether nothing comes from a live host's standby any more. While it takes the full checkpoint it acknowledges nothing."""
    unacknowledged = status["unacknowledged_ms"] / 1000
    if status["mode"] == "filling":
        return (status["silent_ms"] or 0) / 1000 > seconds or unacknowledged > FILLING_SECONDS
    return status["mode"] == "paired" and unacknowledged > seconds


def is_left_half_filled(status: dict) -> bool:
    """Whether it is a standby without a full checkpoint, whose live host is gone: nothing can become of it."""
    return status["role"] == "standby" and not status["full"] and status["link"] == "down"


def holds_up_frozen(status: dict) -> bool:
    """Whether it is such a standby, and its live host stands with the guest, which can't go on before this standby has stopped."""
    return is_left_half_filled(status) and status["peer"].get("role") == "frozen"


def wrong_at(status: dict) -> list[str]:
    """What the daemon says is wrong, a sentence each."""
    found = []
    if status["dead"]:
        found.append(f"the guest can do nothing more: {status['dead']}")
    if status.get("network_error"):
        found.append(f"the guest's network doesn't carry: {status['network_error']}")
    for key, (here, there) in (status.get("drift") or {}).items():
        found.append(f"the two hosts are configured differently: {key} is {here} here and {there} at the other one")
    return found
