"""What a log's folder can give: each log that is in it, also of what it had before, and the guest as it was at a moment. A copy of a folder
that was made while it was written is whole up to some point: what isn't is left out."""
from pathlib import Path
from typing import NamedTuple

from host.log.disk import Disk
from host.log.format import LogBehind, Rotten, generation_of
from host.log.past import rooms
from host.log.reading import Found, LogReader, is_log, judged_log, links


class Course(NamedTuple):
    """A log with those on which it stands, it last, which are all in one folder."""
    room: Path
    logs: list[Found]

    @property
    def last(self) -> Found:
        return self.logs[-1]

    def upto(self, number: int, when: int) -> "Course":
        """The same, but that the log ends there, where that was written."""
        last = self.last
        return self._replace(logs=[*self.logs[:-1], last._replace(places=last.places[:number], ended=when)])


class NotThere(Exception):
    """No log goes back so far, or none is there."""


def generations(disk: Disk, room: Path) -> list[int]:
    """Those that have a log in a folder, the latest first."""
    return sorted((generation_of(name) for name in disk.names(room) if is_log(name)), reverse=True)


def course_of(disk: Disk, room: Path, generation: int, is_copy: bool) -> Course | None:
    """None where the log never began. Raises Rotten, LogBehind, OSError."""
    found = judged_log(disk, room, generation, is_copy)
    if found is None:
        return None
    made = links(disk, room, found, is_copy)
    if f"{made[0].generation}.base" not in disk.names(room):
        raise Rotten(f"{made[0].generation}.base isn't there")
    return Course(room, made)


def course_upto(disk: Disk, room: Path, generation: int, number: int) -> Course:
    """A log that is just being written, up to a checkpoint that is on the disk. Raises Rotten, LogBehind, OSError."""
    log = LogReader(disk, room, generation)
    try:
        found = log.judged(number)
    finally:
        log.close()
    if found is None or found.number < number:
        raise LogBehind(f"{generation}.log ends before checkpoint {number}")
    return Course(room, links(disk, room, found))


def whole_course_of(disk: Disk, room: Path, generation: int, is_copy: bool) -> Course | None:
    """The same, but None where a copy's log isn't whole."""
    try:
        return course_of(disk, room, generation, is_copy)
    except (LogBehind, Rotten):
        if not is_copy:
            raise
        return None


def latest(disk: Disk, folder: Path, is_copy: bool) -> Course:
    """The latest log, which may be over. Raises NotThere, Rotten, LogBehind, OSError."""
    for generation in generations(disk, folder):
        if (course := whole_course_of(disk, folder, generation, is_copy)) is not None:
            return course
    raise NotThere(f"no log is in {folder}")


def as_of(disk: Disk, folder: Path, when: int, is_copy: bool) -> Course:
    """What was written last at a moment, in milliseconds of the wall clock. Raises NotThere, Rotten, LogBehind, OSError."""
    begun = [(found.begun, room, generation) for room in rooms(disk, folder) for generation in generations(disk, room)
             if (found := outlined(disk, room, generation)) is not None and found.begun <= when]
    for _, room, generation in sorted(begun, key=lambda one: one[::2], reverse=True):
        if (course := whole_course_of(disk, room, generation, is_copy)) is not None:
            return course_as_of(disk, course, when)
    raise NotThere(f"no log in {folder} goes back so far")


def course_as_of(disk: Disk, course: Course, when: int) -> Course:
    log = LogReader(disk, course.room, course.last.generation)
    try:
        times = list(log.times(course.last))
    finally:
        log.close()
    number = max((number for number, time in enumerate(times, 1) if time <= when), default=0)
    return course.upto(number, times[number - 1] if number else course.last.begun)


def outlined(disk: Disk, room: Path, generation: int) -> Found | None:
    """A log as its records' heads tell, without their data. Raises Rotten, OSError."""
    log = LogReader(disk, room, generation)
    try:
        return log.outlined()
    finally:
        log.close()
