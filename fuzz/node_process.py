"""The process of a node, to which lines are written one by one, each after the answer to the one before."""
import os
import select
import subprocess

PATIENCE = 60  # seconds, for one answer


class Process:
    def __init__(self, program):
        self.process = subprocess.Popen([program, "node"], stdin=subprocess.PIPE, stdout=subprocess.PIPE, stderr=subprocess.PIPE, bufsize=0)
        self.came = b""

    def write(self, line):
        try:
            self.process.stdin.write(line + b"\n")
        except BrokenPipeError:
            pass  # what it prints, or its status, is what is wrong

    def line(self):
        """The next line that it prints, without its newline; None where it ends or is silent."""
        out = self.process.stdout
        while b"\n" not in self.came:
            data = os.read(out.fileno(), 1 << 16) if select.select([out], [], [], PATIENCE)[0] else b""
            if not data:
                return None
            self.came += data
        line, _, self.came = self.came.partition(b"\n")
        return line

    def differs(self, line, wanted):
        """What is wrong with the answer to a line, if anything. Where a line prints nothing, the next one's answer tells."""
        self.write(line)
        for part in wanted.encode("latin-1").split(b"\n") if wanted is not None else []:
            came = self.line()
            if came != part:
                return f"{line[:50]!r}: {(came or b'nothing')[:90]!r}, not {part[:90]!r}"
        return None

    def kill(self):
        self.process.kill()
        self.process.communicate()
