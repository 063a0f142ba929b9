"""`python3 -m host.log.write_base FOLDER GENERATION MOST NODE..`: writes the base of a generation from the logs on which that stands."""
import os
import sys
import threading
from pathlib import Path

from host.log.catch_up import PacedBase
from host.log.disk import Disk
from host.log.format import LogBehind, Rotten
from host.log.reading import head_of, links
from host.log.recovery import node_of
from host.node import NodeEnded, Refused

PRIORITY = 19


def main(words: list[str], disk: Disk) -> int:
    folder, generation, most, command = Path(words[0]), int(words[1]), int(words[2]), words[3:]
    os.nice(PRIORITY)
    threading.Thread(target=ends_with_daemon, daemon=True).start()
    try:
        base = PacedBase(disk, folder, generation, most)
        node_of(command, disk, folder, links(disk, folder, head_of(disk, folder, generation)), base.write).close()
        base.finish()
        return 0
    except (OSError, Rotten, LogBehind, NodeEnded, Refused) as error:
        print(getattr(error, "strerror", None) or error, file=sys.stderr)
        return 1


def ends_with_daemon() -> None:
    """The daemon's end of standard input is closed once it is gone."""
    while os.read(0, 1):
        pass
    os._exit(1)


if __name__ == "__main__":
    sys.exit(main(sys.argv[1:], Disk()))
