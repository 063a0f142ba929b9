"""A snapshot of what a log holds: the guest as it was at the log's end, also where the log is over."""
import os
import time
from typing import BinaryIO

from host.files import WholeFile
from host.log.disk import Disk
from host.log.history import Course
from host.log.recovery import full_text, node_of
from host.node import Refused
from host.snapshot import Header, check_replaced


CHUNK = 1 << 18  # bytes that are synced at a time, where a rate is given


def export(disk: Disk, course: Course, command: list[str], path: str, rate: float | None = None) -> int:
    """Puts the snapshot in its place as a whole, and answers its bytes. `rate`: it writes no more bytes a second. Raises Rotten, LogBehind,
    OSError, NodeEnded, Refused."""
    check_replaced(path)
    whole, node, header = WholeFile(path), None, Header()
    try:
        whole.file.write(header.room())
        node = node_of(command, disk, course.room, course.logs)
        node.ask("golive")
        node.ask("protect")
        for data in full_text(node, course.last.head.pages):
            header.take(data)
            put(whole.file, data, rate)
        whole.file.seek(0)
        whole.file.write(header.spelled())
        whole.place()
    except BaseException:
        whole.discard()
        raise
    finally:
        if node is not None:
            node.close()
    return len(header.room()) + header.count


def put(file: BinaryIO, data: bytes, rate: float | None) -> None:
    file.write(data)
    if rate is not None and file.tell() % CHUNK < len(data):
        file.flush()
        os.fdatasync(file.fileno())
        time.sleep(CHUNK / rate)
