"""`python3 -m host.log.save LOG ROOM GENERATION NUMBER FILE NODE..`: makes a snapshot of the guest as it was at a checkpoint that is in a
log which a daemon goes on writing, by a process of low priority. The files are held by links in ROOM, whatever becomes of their names
meanwhile. It prints a JSON object: the snapshot's `bytes`, or `refused` and `why`."""
import json
import os
import shutil
import sys
import threading
from pathlib import Path

from host.log.disk import Disk
from host.log.export import export
from host.log.format import LogBehind, Rotten
from host.log.history import course_upto
from host.log.reading import head_of
from host.log.write_base import PRIORITY, ends_with_daemon
from host.node import NodeEnded, Refused

TRIES = 5
RATE = 32e6  # bytes a second, so that no sync of the log waits for long behind the snapshot


def main(log: str, room: str, generation: str, number: str, file: str, *command: str) -> dict[str, object]:
    os.nice(PRIORITY)
    threading.Thread(target=ends_with_daemon, daemon=True).start()
    disk, held = Disk(), Path(room)
    try:
        hold(disk, Path(log), held, int(generation))
        return {"bytes": export(disk, course_upto(disk, held, int(generation), int(number)), list(command), file, RATE)}
    except (Rotten, LogBehind) as error:
        return {"refused": "File", "why": f"the log in {log} can't be read, {type(error).__name__}: {error}"}
    except (NodeEnded, Refused) as error:
        return {"refused": "Node", "why": f"the node that makes it ended, or refused: {error}"}
    except OSError as error:
        return {"refused": "File", "why": f"{error.filename or file} can't be written: {error.strerror or error}"}
    finally:
        shutil.rmtree(held, ignore_errors=True)


def hold(disk: Disk, log: Path, room: Path, generation: int) -> None:
    """Links a generation's log, and what it stands on. What that is may change meanwhile, as a base is written. Raises OSError, Rotten."""
    for _ in range(TRIES - 1):
        try:
            return link(disk, log, room, generation)
        except FileNotFoundError:
            pass
    link(disk, log, room, generation)


def link(disk: Disk, log: Path, room: Path, generation: int) -> None:
    shutil.rmtree(room, ignore_errors=True)
    room.mkdir(mode=0o700)
    os.link(log / f"{generation}.log", room / f"{generation}.log")
    while not (log / f"{generation}.base").exists():
        if (stands_on := head_of(disk, room, generation).head.stands_on) is None:
            raise Rotten(f"{generation}.base isn't there")
        generation = stands_on[0]
        os.link(log / f"{generation}.log", room / f"{generation}.log")
    os.link(log / f"{generation}.base", room / f"{generation}.base")


if __name__ == "__main__":
    print(json.dumps(main(*sys.argv[1:])))
