"""The numbers of docs/PROTOCOL.md: a pair that gives each frame of the guest a number, has the frames of its image's last four commits, and
knows for each client the number of the last frame that came. Who gets a frame is worked out by these numbers alone, and compared with
what oracle/pair.py lets land by checkpoints."""
import collections

from oracle.history import targets
from oracle.pair import ALONE, EMPTY, STOPPED, Pair, by_client, held_to

COMMITS_KEPT = 4


class NumberedPair(Pair):
    def __init__(self, guest, sectors, clients):
        super().__init__(guest, sectors, clients)
        self.next_number, self.came = 1, dict.fromkeys(self.boxes, 0)
        self.image_frames = collections.deque(maxlen=COMMITS_KEPT)  # by commit, those that the image keeps
        self.last_committed = 0  # the number of the last frame in a commit
        self.landing = 1  # the number of the next frame that lands
        self.otherwise = []  # what landed otherwise than by the numbers

    def first_held(self):
        return self.next_number - sum(map(len, self.held.values()))

    def numbered_image_frames(self):
        frames = [frame for commit in self.image_frames for frame in commit]
        return list(enumerate(frames, self.last_committed + 1 - len(frames)))

    def new_for(self, number, frame):
        """The clients for whom the frame comes now."""
        new = [c for c in targets(frame, self.clients) if self.came[c] < number]
        self.came.update(dict.fromkeys(new, number))
        return new

    # What oracle/pair.py does, and the numbers beside it.

    def land(self, frames):
        if self.mode == STOPPED:
            numbered = self.numbered_image_frames()
        else:
            numbered = list(enumerate(frames, self.landing))
            self.landing += len(frames)
        by_numbers = [(frame, c) for number, frame in numbered for c in self.new_for(number, frame)]
        if by_numbers != [(frame, c) for frame in frames for c in targets(frame, self.clients)]:
            self.otherwise.append("what lands by the numbers")
        return super().land(frames)

    def step(self, count):
        self.landing = self.next_number
        try:
            return super().step(count)
        finally:
            if self.mode == ALONE:
                self.next_number = self.landing

    def cut(self):
        sent = len(self.outbox)
        answer = super().cut()
        self.next_number += sent
        return answer

    def commit(self, n):
        if self.committed == EMPTY:
            self.image_frames.clear()
        self.image_frames.append(list(self.held.get(n, [])))
        self.last_committed += len(self.image_frames[-1])
        super().commit(n)

    def ack(self, k):
        self.landing = self.first_held()
        return super().ack(k)

    def fail_backup(self):
        self.landing = self.first_held()
        answer = super().fail_backup()
        self.next_number = self.landing
        return answer

    def golive(self):
        answer = super().golive()
        self.next_number = self.last_committed + 1
        return answer

    def protect(self):
        answer = super().protect()
        self.next_number, self.last_committed, self.came = 1, 0, dict.fromkeys(self.boxes, 0)
        self.image_frames.clear()
        return answer

    # What holds between events.

    def differs(self):
        """What isn't as docs/PROTOCOL.md has it, by name."""
        first = self.first_held()
        holds = {"a client's last number": max(self.came.values()) < first}
        if self.mode != ALONE:
            frames, committed = self.numbered_image_frames(), held_to(self, self.committed + 1)
            held_ahead = sum(map(len, self.held.values())) - len(committed)
            holds |= {
                "the next number": self.last_committed + held_ahead + 1 == self.next_number,
                "what is held of committed checkpoints": [frame for number, frame in frames if number >= first] == committed,
                "what came of the image's frames": self.still_owed(frames) == by_client(self, committed)}
        return self.otherwise + [name for name, is_so in holds.items() if not is_so]

    def still_owed(self, numbered):
        """By client, those of these frames that didn't come."""
        return {c: [frame for number, frame in numbered if c in targets(frame, self.clients) and number > self.came[c]] for c in self.boxes}
