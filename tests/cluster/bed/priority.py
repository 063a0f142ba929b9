"""The test's hosts and clients are machines of their own: what else this machine does isn't to slow them down. They are put into a group
that comes first on its processors, where Linux has such groups (cgroups of version 1 or 2)."""
from pathlib import Path

NAME = "remus-cluster"
FIRST, SECOND = Path("/sys/fs/cgroup/cpu"), Path("/sys/fs/cgroup")
SHARE, WEIGHT = 60000, 10000  # of version 1, where others have 1024; of version 2, where they have 100
REALTIME = 600_000  # microseconds of each second, for Corosync


def group():
    """The group's folder; None where there are no such groups."""
    if (FIRST / "cpu.shares").exists():
        folder, told = FIRST / NAME, {"cpu.shares": SHARE, "cpu.rt_runtime_us": REALTIME}
    elif "cpu" in read(SECOND / "cgroup.subtree_control").split():
        folder, told = SECOND / NAME, {"cpu.weight": WEIGHT}
    else:
        return None
    folder.mkdir(exist_ok=True)
    for name, value in told.items():
        try:
            (folder / name).write_text(str(value))
        except OSError:
            pass  # a kernel without real time groups
    return folder


def read(path):
    try:
        return path.read_text()
    except OSError:
        return ""


def before():
    """What stands before a command that is to come first."""
    folder = group()
    return ["sh", "-c", f'echo $$ >{folder}/cgroup.procs; exec "$@"', "sh"] if folder else []
