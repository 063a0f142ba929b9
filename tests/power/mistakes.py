"""Mistakes in how a log is kept, of which a daemon makes one where REMUS_MISTAKE names it: tests/power/run is to find each."""
import os

from host import turning
from host.log import writer
from host.log.keeper import Keeper


def early() -> None:
    """A checkpoint is acknowledged before its text is synced."""
    kept = Keeper.sync

    def sync(self: Keeper) -> None:
        if self.log is not None:
            self.reached = self.log.session, self.log.generation, self.log.number
            self.wake()
        kept(self)
    Keeper.sync = sync


def alone() -> None:
    """What `alone` lets out in a turn isn't held."""
    kept = turning.begin

    def begin(live: "Live", now: float) -> bool:
        has_begun = kept(live, now)
        if has_begun:
            live.put(live.turning.frames, now)
            live.turning.frames = []
        return has_begun
    turning.begin = begin


def rename() -> None:
    """Files have their names before the folder is synced."""
    kept = Keeper.next_log

    def next_log(self: Keeper, *words: object) -> None:
        synced, self.disk.sync_folder = self.disk.sync_folder, lambda folder: None
        try:
            kept(self, *words)
        finally:
            self.disk.sync_folder = synced
    Keeper.next_log = next_log


def tidy() -> None:
    """What a later generation stands on is removed before the base of that is on the disk."""
    kept = Keeper.turn_log

    def turn_log(self: Keeper, *words: object) -> None:
        kept(self, *words)
        writer.tidy(self.disk, self.folder, {self.log.generation})
    Keeper.turn_log = turn_log


MISTAKES = {one.__name__: one for one in (early, alone, rename, tidy)}


def make() -> None:
    """The one that the environment names, if it does."""
    if name := os.environ.get("REMUS_MISTAKE"):
        MISTAKES[name]()
