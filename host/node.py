"""The node's process, and its lines: docs/NODES.md."""
import fcntl
import os
import signal
import subprocess
from binascii import hexlify, unhexlify
from collections.abc import Sequence

from host import stack

PIPE_BYTES = 1 << 20
BUFFER = 1 << 18  # bytes, above those of a piece of a text
SET_PIPE_SIZE = 1031  # F_SETPIPE_SZ
# How the C library serves the node, unless the environment has it otherwise. What a large epoch takes is given back with it, so the next
# one would get it from the system page by page, which takes longer than the cut itself: up to 256 MiB stay.
MEMORY = {"MALLOC_MMAP_MAX_": "0", "MALLOC_TRIM_THRESHOLD_": str(256 << 20)}
ENDS = {signal.SIGSEGV: ", as one that is refused a page of its stack", signal.SIGKILL: ", as one that somebody kills, or the kernel where "
        "memory is short"}
RAW_TEXT = b"rawtext"
WITH_FRAMES, REFUSALS = {b"steps", b"acked", b"alone"}, {b"refused", b"bad"}
STEPS, WRITTEN = 7, 9  # the places of these numbers in the answer to `show`
MADE, OUTBOX = 1, 3  # and in the answer to `step`: the guest's step count, and how many frames wait in its outbox
PIECE = 1 << 16  # bytes of a text that are asked for at a time
LOOK = "text 0 0 0"  # asks for no byte of the full checkpoint's text, so that the node looks at the guest's next pages for it
LOOKED_AT = 1024  # pages, with each such line
FAULTS = {signal.SIGILL, signal.SIGBUS, signal.SIGFPE, signal.SIGSEGV}  # what the kernel sends a process for a mistake of its own
# What else may be sent, and tells a daemon to end, or asks for something.
SHIELDED = signal.valid_signals() - FAULTS - {signal.SIGKILL, signal.SIGSTOP, signal.SIGCONT, signal.SIGCHLD, signal.SIGPIPE}


class NodeEnded(Exception):
    """The node's process is gone, or its pipes are."""


class Refused(Exception):
    """The node refused a line: `number` and `name` of the refusal, and the whole answer as text."""

    def __init__(self, answer):
        words = answer.split()
        self.number = int(words[1]) if len(words) > 1 and words[1].isdigit() else 0
        self.name = words[2] if len(words) > 2 else answer
        super().__init__(answer)


class Answer:
    """An answer's words, and the frames, or the bytes of a text, that follow it. `is_refused` where it is a refusal, or `bad`."""
    __slots__ = ("words", "frames", "data", "is_refused")

    def __init__(self, words: list[bytes], frames: Sequence[bytes] = (), data: bytes = b"") -> None:
        self.words, self.frames, self.data, self.is_refused = words, frames, data, words[0] in REFUSALS

    def number(self, place):
        return int(self.words[place])

    def checked(self):
        """The answer itself. Raises Refused where it is a refusal."""
        if self.is_refused:
            raise Refused(b" ".join(self.words).decode())
        return self


def started(command: list[str]) -> subprocess.Popen:
    """A node's process. The signals that a terminal or an init system may send to all of the daemon's group don't reach it: the daemon ends
    it, when it is needed no more."""
    stack.raise_limit()
    kept = signal.pthread_sigmask(signal.SIG_BLOCK, SHIELDED)
    try:
        return subprocess.Popen(command, env=MEMORY | os.environ, stdin=subprocess.PIPE, stdout=subprocess.PIPE, bufsize=BUFFER)
    except OSError as error:
        raise NodeEnded(f"{command[0]} can't be started: {error.strerror}") from None
    finally:
        signal.pthread_sigmask(signal.SIG_SETMASK, kept)


class Node:
    """A node, in this daemon's process group."""

    def __init__(self, command):
        self.process = started(command)
        self.input, self.output = self.process.stdin, self.process.stdout
        for pipe in (self.input, self.output):
            try:
                fcntl.fcntl(pipe.fileno(), SET_PIPE_SIZE, PIPE_BYTES)
            except OSError:
                pass  # it works with the size it has
        self.pid = self.process.pid
        if self.tell(b"show")[0].words[:1] != [b"mode"]:
            self.close()
            raise NodeEnded(f"{' '.join(command)} doesn't answer as a node does")
        if not stack.grow(self.pid):
            self.close()
            raise NodeEnded(f"the node can't have {stack.MORE[-1]} bytes of stack more: the limits here are too narrow (ulimit -s and -v, or "
                            "vm.overcommit_memory)")

    def tell(self, *lines: bytes) -> list[Answer]:
        """The answers to these lines. Together they, or their answers, fit into a pipe, but for the last one's."""
        self.put(*lines)
        return [self.answer() for _ in lines]

    def put(self, *lines: bytes) -> None:
        """Tells it these lines, whose answers are to be read in their turn. Raises NodeEnded."""
        try:
            for line in lines:
                self.input.write(line)
                self.input.write(b"\n")
            self.input.flush()
        except (BrokenPipeError, ValueError):
            raise NodeEnded(self.end()) from None

    def ask(self, line):
        """The answer to one line, as text is given. Raises Refused."""
        return self.tell(line.encode())[0].checked()

    def answer(self) -> Answer:
        words = self.line().split() or [b""]
        if words[0] == RAW_TEXT:
            return Answer(words, data=self.raw(int(words[1])))
        if words[0] not in WITH_FRAMES or words[-1] == b"0":
            return Answer(words)
        return Answer(words, [unhexlify(self.line()[6:-1]) for _ in range(int(words[-1]))])

    def raw(self, count: int) -> bytes:
        """So many bytes, behind which stands a newline."""
        data = self.output.read(count)
        if self.output.read(1) != b"\n":
            raise NodeEnded(self.end())
        return data

    def line(self):
        line = self.output.readline()
        if line[-1:] != b"\n":
            raise NodeEnded(self.end())
        return line

    def end(self):
        """How the process ended."""
        try:
            self.process.wait(timeout=1)
        except subprocess.TimeoutExpired:
            pass  # its pipes are closed, and it isn't needed without them
        self.close()
        return ended(self.process.returncode)

    def kill(self):
        if self.process.poll() is None:
            self.process.kill()

    def close(self):
        """Kills the process, and waits until it is gone."""
        self.kill()
        for pipe in (self.input, self.output):
            try:
                pipe.close()
            except OSError:
                pass
        self.process.wait()

    def memory(self):
        """The bytes of memory that the process has now."""
        try:
            with open(f"/proc/{self.pid}/statm") as numbers:
                return int(numbers.read().split()[1]) * os.sysconf("SC_PAGE_SIZE")
        except (OSError, IndexError):
            return 0


def ended(status: int) -> str:
    """How a node ended, by its exit status."""
    if status >= 0:
        return f"the node ended, status {status}"
    names = {one.value: one.name for one in signal.Signals}
    return f"the node ended by {names.get(-status, f'signal {-status}')}{ENDS.get(-status, '')}"


def arrive(frame):
    return b"arrive " + hexlify(frame)


def piece(data: bytes) -> bytes:
    return b"rawpiece %d\n%b" % (len(data), data)


def part(number: int, begin: int, count: int) -> bytes:
    """The line that asks for so many bytes of a pending checkpoint's text, which are the answer's data."""
    return b"rawtext %d %d %d" % (number, begin, count)


def looks(pages):
    """After how many lines that look a node has looked at so many pages."""
    return -(-pages // LOOKED_AT)


def text_from(node: Node, number: int, begin: int) -> tuple[bytes, bool]:
    """Of a pending checkpoint's text the bytes from this place on, a piece of them or as many as there are; and whether they are the last.
    One byte more is asked for, which tells: how long a full checkpoint's text is isn't known before."""
    data = node.tell(part(number, begin, PIECE + 1))[0].checked().data
    return data[:PIECE], len(data) <= PIECE
