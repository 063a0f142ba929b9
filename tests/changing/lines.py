"""What happens to a guest: lines of `remus node` for one host after the other. Each host but the first begins as the standby of the one
before it, and goes live where that one ends."""
from tests.changing.guests import SECTORS, Draw, Guest

# More bytes than any text has.
WHOLE = 10**7


class Host:
    """A host's lines. A number stands for the line that brings the text which the host before it was asked for by that place."""

    def __init__(self, first):
        self.lines = [first]
        self.asked = 0

    def say(self, line):
        self.lines.append(line.encode())

    def ask_text(self, number):
        """Asks for a checkpoint's text. Answers its place among those that it was asked for."""
        self.say(f"text {number} 0 {WHOLE}")
        self.asked += 1
        return self.asked - 1

    def take_text(self, place):
        self.lines.append(place)
        self.say("commit")

    def lines_with(self, texts):
        """All lines, by what the host before it printed."""
        return [line if isinstance(line, bytes) else b"piece " + (texts[line] if line < len(texts) else b"00") for line in self.lines]


class Script:
    """A program: its guest, and the lines of its hosts."""

    def __init__(self, seed, index):
        self.draw = Draw(f"changing {seed} {index}")
        self.guest = Guest(self.draw)
        self.primary, self.standby = Host(self.guest.boot().encode()), None
        self.hosts = [self.primary]
        self.generation, self.longest = 1, self.draw.of([14, 15, 16] if self.guest.is_wide else [8, 11, 13, 14, 15, 16])
        self.write(self.draw.between(4, 11))

    def write(self, rounds):
        self.steps()
        for _ in range(rounds):
            self.draw.of([self.lone_runs, self.epochs, self.epochs, self.epochs_of_a_pair, self.epochs_of_a_pair])()
        self.see()

    def steps(self):
        """A run of random length: of two numbers of bits up to the longest the larger one."""
        bits = max(self.draw.between(1, self.longest + 1), self.draw.between(1, self.longest + 1))
        self.primary.say(f"step {self.draw.between(1 << bits - 1, 1 << bits)}")

    def run(self):
        """Runs, and frames that arrive between them."""
        draw = self.draw
        for _ in range(draw.of([1, 1, 1, 2, 3])):
            if draw.chance(0.2):
                self.primary.say(f"arrive {self.guest.frame().hex()}")
            self.steps()

    def see(self):
        """All of the state of a primary that is alone, which it is afterwards again."""
        self.protect()
        self.primary.say("alone")

    def protect(self):
        """A new generation begins. Answers the place of the full checkpoint's text."""
        self.generation += 1
        self.primary.say("protect")
        return self.primary.ask_text(0)

    def acknowledge(self, number):
        self.primary.say(f"ack {self.generation} {number}")

    # What happens in a round, before and after which the primary is alone.

    def lone_runs(self):
        for _ in range(self.draw.between(1, 4)):
            self.run()
            self.see()

    def epochs(self):
        """Epochs, of which no standby is told: they are acknowledged all the same."""
        self.protect()
        self.acknowledge(0)
        for number in range(1, self.draw.between(2, 8)):
            self.run()
            self.primary.say("cut")
            self.primary.ask_text(number)
            self.acknowledge(number)
        self.primary.say("alone")

    def epochs_of_a_pair(self):
        """Epochs that a standby takes in, some of them late; then the primary stops, or the standby, or none."""
        draw = self.draw
        full = self.protect()
        standby = Host(f"standby {self.guest.pages} {SECTORS} {self.generation}".encode())
        standby.take_text(full)
        self.acknowledge(0)
        waiting, committed, last = [], 0, draw.between(1, 9)
        for number in range(1, last + 1):
            self.run()
            self.primary.say("cut")
            waiting.append(self.primary.ask_text(number))
            if len(waiting) == 4 or draw.chance(0.7):
                for place in waiting:
                    standby.take_text(place)
                waiting, committed = [], number
                self.acknowledge(committed)
        if draw.chance(0.25):
            # The standby stops.
            self.primary.say("alone")
            return
        if draw.chance(0.5):
            # What isn't committed is lost.
            self.run()
        self.fail_over(standby)

    def fail_over(self, standby):
        standby.say("golive")
        self.generation += 1
        self.primary = standby
        self.hosts.append(standby)
