#!/usr/bin/env python3
"""The client of tests/two_hosts, in its own network: asks the guest over and over until the end of its input, and records each frame that
came from the guest. Prints what it saw as one JSON object.

    tests/two_hosts_client.py web | counter"""
import json
import os
import select
import socket
import struct
import subprocess
import sys
import threading
import time
from pathlib import Path

ROOT = Path(__file__).resolve().parents[1]
sys.path.insert(0, str(ROOT))
from guests.lib.frames import ECHO_REPLY, ECHO_REQUEST, GUEST_MAC, icmp_echo
from tests.served import big

GUEST = "10.0.0.1"
ALL_PROTOCOLS, PACKETS_OUT = 3, 4  # ETH_P_ALL, PACKET_OUTGOING
ASK_EVERY, PING_EVERY = 0.002, 0.01  # seconds
PATIENCE = 120  # seconds, for one download
IPV4 = b"\x08\x00"


class Recorder(threading.Thread):
    """Keeps a sum of each frame of IPv4 that came from the guest, in a set."""

    def __init__(self):
        super().__init__(daemon=True)
        self.socket = socket.socket(socket.AF_PACKET, socket.SOCK_RAW, socket.htons(ALL_PROTOCOLS))
        self.socket.setsockopt(socket.SOL_SOCKET, 33, 1 << 24)  # SO_RCVBUFFORCE
        self.socket.bind(("eth0", 0))
        self.seen, self.count, self.twice = set(), 0, []

    def run(self):
        while True:
            frame, address = self.socket.recvfrom(2048)
            if address[2] != PACKETS_OUT and frame[6:12] == GUEST_MAC and frame[12:14] == IPV4:
                self.count += 1
                if (sum_of := hash(frame)) in self.seen:
                    self.twice.append(frame.hex())
                self.seen.add(sum_of)

    def lost(self):
        """Frames that the recorder itself had no room for."""
        return struct.unpack("II", self.socket.getsockopt(263, 6, 8))[1]  # SOL_PACKET, PACKET_STATISTICS


class Seen:
    def __init__(self):
        self.is_over, self.wrong = False, []
        self.downloads, self.counts, self.answers, self.pings = 0, [], [], 0


def curl(path):
    ran = subprocess.run(["curl", "-sS", "-m", str(PATIENCE), f"http://{GUEST}{path}"], capture_output=True)
    return ran.stdout if ran.returncode == 0 else f"curl: {ran.stderr.decode().strip()}"


def download(seen, wanted):
    while not seen.is_over:
        body = curl("/big")
        seen.downloads += 1
        if body != wanted:
            seen.wrong.append(f"/big: {body[:80]!r}")


def count(seen):
    while not seen.is_over:
        body = curl("/count")
        if isinstance(body, str) or not body.strip().isdigit():
            seen.wrong.append(f"/count: {body[:80]!r}")
        else:
            seen.counts.append(int(body))
        time.sleep(0.05)


def ping(seen):
    """Pings; each answer is of a question that was asked, and comes once."""
    line, asked, answered = socket.socket(socket.AF_INET, socket.SOCK_RAW, socket.IPPROTO_ICMP), set(), set()
    number = 0
    while not seen.is_over:
        number = (number + 1) % 65536
        asked.add(number)
        answered.discard(number)
        line.sendto(icmp_echo(ECHO_REQUEST, number, b"two hosts"), (GUEST, 0))
        end = time.monotonic() + PING_EVERY
        while select.select([line], [], [], max(0, end - time.monotonic()))[0]:
            message = line.recv(2048)[20:]
            if message[0] == ECHO_REPLY and message[4:6] == b"\x70\x69":
                answer = int.from_bytes(message[6:8], "big")
                if answer not in asked or answer in answered:
                    seen.wrong.append(f"ping {answer} was answered twice, or never asked")
                answered.add(answer)
                seen.pings += 1


def ask(seen):
    """Asks the counter; each answer is above the one before."""
    line, last = socket.socket(socket.AF_INET, socket.SOCK_DGRAM), 0
    line.connect((GUEST, 7))
    next_at = time.monotonic()
    while not seen.is_over:
        try:
            line.send(b"x")
        except OSError:
            pass  # nobody answers ARP now
        next_at = max(next_at + ASK_EVERY, time.monotonic())
        while select.select([line], [], [], max(0, next_at - time.monotonic()))[0]:
            try:
                number = int(line.recv(100).split()[0])
            except OSError:
                continue
            seen.answers.append((time.monotonic(), number))
            if number <= last:
                seen.wrong.append(f"the counter went from {last} to {number}")
            last = number


def main():
    seen, recorder = Seen(), Recorder()
    kinds = {"web": [lambda: download(seen, wanted), lambda: count(seen), lambda: ping(seen)], "counter": [lambda: ask(seen)]}
    wanted = big()
    recorder.start()
    threads = [threading.Thread(target=one) for one in kinds[sys.argv[1]]]
    for thread in threads:
        thread.start()
    print("asking", flush=True)
    sys.stdin.read()
    seen.is_over = True
    for thread in threads:
        thread.join()
    time.sleep(0.2)
    rises = all(a < b for a, b in zip(seen.counts, seen.counts[1:]))
    print(json.dumps({"wrong": seen.wrong[:5] + ([] if rises else [f"/count didn't rise: {seen.counts}"]), "downloads": seen.downloads,
                      "counts": len(seen.counts), "pings": seen.pings, "answers": seen.answers, "frames": recorder.count,
                      "twice": recorder.twice[:5], "unrecorded": recorder.lost()}))
    os._exit(0)


if __name__ == "__main__":
    main()
