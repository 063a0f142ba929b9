"""The stack of a node's process. One that wants a page of stack which the kernel refuses is ended by SIGSEGV, and the guest with it. At its
first answer a node has nearly all that it ever wants, some 200 KB; so it gets more at once."""
import resource
from pathlib import Path

MORE = 256 << 10, 64 << 10  # bytes: so much more, or else so much
LIMIT = 8 << 20  # bytes: a limit that is lower is raised


def raise_limit() -> None:
    """Of this process, and of those that it starts, as far as it may."""
    soft, hard = resource.getrlimit(resource.RLIMIT_STACK)
    if soft != resource.RLIM_INFINITY and soft < LIMIT:
        most = LIMIT if hard == resource.RLIM_INFINITY else min(hard, LIMIT)
        resource.setrlimit(resource.RLIMIT_STACK, (most, hard))


def grow(pid: int) -> bool:
    """Has the kernel give a process more stack now. False where a limit leaves it too little."""
    begin, end = stack_of(pid)
    return not begin or any(is_grown(pid, begin, more) for more in MORE) or not is_limited(end - begin + MORE[-1])


def stack_of(pid: int) -> tuple[int, int]:
    """Where a process's stack is now, from its lowest address to its end; zeros where that isn't told."""
    try:
        with open(f"/proc/{pid}/maps") as maps:
            line = next((line for line in maps if line.endswith("[stack]\n")), "0-0 ")
    except OSError:
        return 0, 0
    begin, end = line.split()[0].split("-")
    return int(begin, 16), int(end, 16)


def is_grown(pid: int, begin: int, more: int) -> bool:
    """Whether it has so much more below its stack's lowest address, or nobody here may see to that."""
    try:
        with open(f"/proc/{pid}/mem", "r+b", buffering=0) as memory:
            memory.seek(begin - more)
            return memory.write(bytes(more)) == more  # below all that it has, so nothing is written over
    except PermissionError:
        return True
    except (OSError, ValueError):
        return False


def is_limited(stack: int) -> bool:
    """Whether processes here may be refused so much stack."""
    limits = [resource.getrlimit(kind)[0] for kind in (resource.RLIMIT_STACK, resource.RLIMIT_AS)]
    try:
        is_strict = Path("/proc/sys/vm/overcommit_memory").read_text().strip() == "2"
    except OSError:
        is_strict = False
    return is_strict or limits[1] != resource.RLIM_INFINITY or limits[0] != resource.RLIM_INFINITY and limits[0] < stack
