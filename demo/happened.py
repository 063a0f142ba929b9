"""What happened in a script of the web server: hosts, epochs, frames, and what the client was told, by the script's lines and what they
printed. Time goes along the steps that live guests made, those of lost epochs too."""
import argparse
import struct
import sys
from pathlib import Path

from guests.lib.frames import SYN, TCP, payload, tcp_data

STEPS_A_SECOND = 1_000_000  # of the server's time


class Host:
    """A node: since when it is there, when it has a state that could go on, goes live and is alone, and when it stops."""

    def __init__(self, since):
        self.since, self.filled, self.live, self.end = since, None, None, None
        self.alone = []  # spans


class Epoch:
    def __init__(self, start, end):
        self.start, self.end, self.committed, self.released, self.landed = start, end, None, None, 0


class Run:
    """What happened, and when, by the script's lines and what they printed."""

    def __init__(self, lines, answers):
        self.now, self.epoch_start = 0, 0
        self.hosts = [Host(0), Host(0)]
        self.hosts[0].live = self.hosts[0].filled = self.hosts[1].filled = 0
        self.epochs, self.open = [], {}  # all that were cut; those that aren't acknowledged, by generation and number
        self.kept = []  # of each backup that went live: the last epoch whose frames landed then
        self.is_landing = False  # until the next step
        self.lost = []  # spans of steps that no backup had
        self.stops, self.resumed = [], []  # times, the latter with the guest's steps
        self.taken, self.asked = [], []  # the frames that the client took, and those that it sent, each with its time
        self.lost_out, self.lost_in = [], []  # times
        for line, answer in zip(lines, answers):
            self.read(line.split(" "), answer.split(" "))
        self.end_alone()

    def read(self, line, answer):
        known = getattr(self, "_" + line[0], None)
        if known and answer[0] not in ("refused", "lost", "empty", "none"):
            known(line, answer)

    def _step(self, line, _):
        self.now += int(line[1])
        self.is_landing = False

    def _cut(self, _, answer):
        epoch = self.open[answer[1], int(answer[2])] = Epoch(self.epoch_start, self.now)
        self.epochs.append(epoch)
        self.epoch_start = self.now

    def _backup(self, _, answer):
        epoch = self.open.get((answer[1], int(answer[2])))
        if answer[0] == "committed" and epoch:
            epoch.committed = self.now
            if self.hosts[-1].filled is None:
                self.hosts[-1].filled = self.now

    def _ack(self, _, answer):
        done = [key for key in self.open if key[0] == answer[1] and key[1] <= int(answer[2])]
        for key in done:
            self.open[key].released = self.now
        if done:
            self.open[done[-1]].landed = int(answer[4])
        for key in done:
            del self.open[key]

    def _take(self, _, answer):
        self.taken.append((self.now, bytes.fromhex(answer[1])))
        if self.is_landing:
            self.kept[-1].landed += 1

    def _deliver(self, line, _):
        self.asked.append((self.now, bytes.fromhex(line[2])))

    def _losein(self, *_):
        self.lost_in.append(self.now)

    def _loseout(self, *_):
        self.lost_out.append(self.now)

    def _fail(self, line, _):
        if line[1] == "primary":
            self.stops.append(self.now)
            self.hosts[-2].end = self.now

    def _golive(self, _, answer):
        self.lost += [(epoch.start, epoch.end) for epoch in self.open.values() if not epoch.committed]
        if self.epoch_start < self.now:
            self.lost.append((self.epoch_start, self.now))
        self.epochs = [epoch for epoch in self.epochs if epoch.committed]
        # What was held of committed ones lands. How many frames that are is seen by what the client takes before the next step.
        kept = [epoch for epoch in self.open.values() if epoch.committed]
        for epoch in kept:
            epoch.released = self.now
        self.kept, self.is_landing, self.open = self.kept + kept[-1:], bool(kept), {}
        self.resumed.append((self.now, int(answer[3])))
        self.hosts[-1].live = self.now
        self.hosts[-1].alone.append([self.now, None])

    def _protect(self, _, answer):
        self.end_alone()
        self.hosts.append(Host(self.now))
        self.open[answer[1], 0] = Epoch(self.now, self.now)
        self.epoch_start = self.now

    def end_alone(self):
        for host in self.hosts:
            for span in host.alone:
                span[1] = span[1] or self.now


class Answers:
    """What the client was told over its connection: how many bytes had come in their turn at each time, and the answers in them."""

    def __init__(self, run):
        segments = [(time, *segment_of(frame)) for time, frame in run.taken if segment_of(frame)]
        early, stream, expected = {}, b"", None
        self.came = []  # times, and how many bytes had come
        for time, number, flags, data in segments:
            if flags & SYN:
                expected = number + 1
            if data:
                early[number] = data
            while expected in early:
                data = early.pop(expected)
                stream, expected = stream + data, expected + len(data)
            self.came.append((time, len(stream)))
        self.answers = list(answers_in(stream, paths_of(run.asked)))

    def when(self, count):
        """When so many bytes had come."""
        return next(time for time, came in self.came if came >= count)

    def longest(self):
        """The longest answer: its path, and where its body begins and ends."""
        return max(self.answers, key=lambda answer: answer[2] - answer[1])[:3]

    def pauses(self, least):
        """The times without a new byte in the midst of the longest answer that are at least so long: when each began and ended."""
        _, start, end = self.longest()
        new = [time for (time, came), (_, before) in zip(self.came[1:], self.came) if came > before and start < came and before < end]
        return [span for span in zip(new, new[1:]) if span[1] - span[0] >= least]


def segment_of(frame):
    """The number, the flags and the data of a frame's TCP segment, if it has one."""
    segment = payload(frame, TCP)
    if segment is None:
        return None
    return struct.unpack_from(">I", segment, 4)[0], segment[13], tcp_data(segment)


def paths_of(frames):
    """What the client asked for, in its order. A segment that its TCP repeated asks nothing new."""
    asked = {}
    for _, frame in frames:
        number, _, data = segment_of(frame) or (0, 0, b"")
        if data:
            asked[number] = data.split(b" ")[1].decode()
    return list(asked.values())


def answers_in(stream, paths):
    """The answers to requests for these paths: the path, where the body begins and ends, and the body."""
    at = 0
    for path in paths:
        head_end = stream.find(b"\r\n\r\n", at)
        if head_end < 0:
            return
        fields = dict(line.split(b": ", 1) for line in stream[at:head_end].split(b"\r\n")[1:])
        start = head_end + 4
        at = start + int(fields[b"Content-Length"])
        yield path, start, at, stream[start:at]


def asked(about, what):
    """What the one file has that the command line names."""
    reader = argparse.ArgumentParser(description=about, formatter_class=argparse.RawDescriptionHelpFormatter)
    reader.add_argument("file", type=Path, metavar="FILE", help=what)
    path = reader.parse_args().file
    try:
        return path.read_text()
    except OSError as error:
        sys.exit(f"{path} can't be read: {error.strerror}")


def read(about):
    """What happened, and what the client was told, of a script named on the command line and played on standard input."""
    script = asked(about, "the script that was played; what it printed is read from standard input")
    lines = [line for line in script.splitlines() if line and not line.startswith("#")]
    answers = sys.stdin.read().splitlines()
    if len(lines) != len(answers):
        sys.exit("that isn't what the script printed")
    run = Run(lines, answers)
    return run, Answers(run)
