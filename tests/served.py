"""`tools/serve` and a browser as tests, measurements and demo/screenshot start them."""
import os
import socket
import subprocess
import time
from pathlib import Path

ROOT = Path(__file__).resolve().parents[1]
PROGRAM = os.environ.get("REMUS") or str(ROOT / "remus")
BIG_BYTES = 200_000


def big():
    """What stands at /big (guests/server/files.c): words of eight bytes, each a multiple of one number, mixed with its upper half."""
    multiples = ((place + 1) * 0x9E3779B97F4A7C15 % 2**64 for place in range(BIG_BYTES // 8))
    return b"".join((word ^ word >> 32).to_bytes(8, "little") for word in multiples)


def free_port(kind=socket.SOCK_STREAM):
    with socket.socket(socket.AF_INET, kind) as any_socket:
        any_socket.bind(("127.0.0.1", 0))
        return any_socket.getsockname()[1]


def chromium(folder, *options, size=(800, 500)):
    """The command of a browser without a screen, whose settings lie in a folder; its window has so many pixels across and down."""
    return ["chromium", "--headless", "--no-sandbox", "--disable-gpu", "--hide-scrollbars", f"--user-data-dir={folder}",
            f"--window-size={size[0]},{size[1]}", *options]


class Served:
    """`tools/serve`, running, in one process or over two hosts."""

    def __init__(self, *options, script="examples/server.sim", guest="80", one_process=True):
        self.port = free_port(socket.SOCK_DGRAM if guest.endswith("/udp") else socket.SOCK_STREAM)
        self.url = f"http://127.0.0.1:{self.port}"
        command = [ROOT / "tools/serve", ROOT / script, "--forward", f"{self.port}:{guest}", "--program", PROGRAM, *options]
        command += ["--one-process"] if one_process else []
        self.process = subprocess.Popen([str(word) for word in command], stdin=subprocess.PIPE, stdout=subprocess.PIPE, text=True)

    def __enter__(self):
        """Once it has said where it listens, and its guest has had a second to begin."""
        self.process.stdout.readline()
        time.sleep(1)
        return self

    def press(self, key):
        self.process.stdin.write(key)
        self.process.stdin.flush()

    def __exit__(self, *_):
        self.said, _ = self.process.communicate("q", timeout=60)

    @property
    def failures(self):
        return self.said.count("the primary, stops") + self.said.count("the live one, is killed")

    def curl(self, path, patience=120):
        """The body, where curl is content."""
        ran = subprocess.run(["curl", "-sS", "-m", str(patience), self.url + path], capture_output=True)
        return ran.stdout if ran.returncode == 0 else f"curl: {ran.stderr.decode()}"
