#!/usr/bin/env python3
"""Writes streams of some 100 MB into a folder, and single checkpoints of so many frames of so many bytes, for bench/checkpoints.sh:
`bench/streams.py FOLDER`."""
import sys
from pathlib import Path

sys.path.insert(0, str(Path(__file__).resolve().parent.parent))
from oracle.checkpoints import BLOCK, SECTOR, Checkpoint, beacon, text

LEAST = 100_000_000


def repeated(checkpoint):
    one = text(checkpoint)
    return one * (LEAST // len(one) + 1)


def main(folder):
    whole = {i: bytes([i + 1]) * BLOCK for i in range(64)}
    one = {5: b"\1" + bytes(BLOCK - 1)}
    streams = {
        "largest": Checkpoint(16384, 32768, page_records={page: whole for page in range(16384)}),
        "pages": Checkpoint(4096, 32768, page_records={page: whole for page in range(4096)}),
        "blocks": Checkpoint(4096, 32768, page_records={page: one for page in range(4096)}),
        "sectors": Checkpoint(4096, 32768, sector_records={sector: b"\xab" * SECTOR for sector in range(32768)}),
        "beacons": beacon(),
        "frames": Checkpoint(2, 1, frames=[b"\xab" * 1514] * 256),
    }
    for name, checkpoint in streams.items():
        (Path(folder) / name).write_bytes(repeated(checkpoint))
    for count in (0, 1, 16, 256):
        for length in (64, 1514):
            checkpoint = Checkpoint(2, 1, page_records={1: one}, frames=[b"\xab" * length] * count)
            (Path(folder) / f"{count}x{length}").write_bytes(text(checkpoint))


main(sys.argv[1])
