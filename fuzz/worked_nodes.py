"""A worked run of two nodes that goes through all lines of docs/NODES.md, for fuzz/node_refusals and tests/gate/nodes."""
from oracle import mirror, strider
from oracle.nodes import Node, raw_piece, text_bytes

FRAME = "arrive 020000000101020000000001" + "88b5" * 30


class Worked:
    """The lines of each host, in the order in which they are asked, with what each is answered. Each character is a byte."""

    def __init__(self):
        self.nodes, self.told = {}, []  # told: (host, line, answer)

    def ask(self, host, *lines):
        for line in lines:
            answer = self.nodes.setdefault(host, Node()).answer(line.encode("latin-1"))
            self.told.append((host, line, answer))
        return answer

    def carry(self, number, parts, primary="primary", standby="standby"):
        """The text of a pending checkpoint goes from one host to the other, in so many parts, those of an odd number by their bytes."""
        pending = self.nodes[primary].role.pending
        length = next(len(waiting.text) for waiting in pending if waiting.number == number)
        count = -(-length // parts)
        for at in range(0, length, count):
            if number % 2:
                piece = raw_piece(text_bytes(self.ask(primary, f"rawtext {number} {at} {count}"))).decode("latin-1")
            else:
                piece = "piece " + self.ask(primary, f"text {number} {at} {count}")[5:]
            self.ask(standby, piece)

    def lines(self, host):
        return [(line, answer) for asked, line, answer in self.told if asked == host]


def run():
    """A guest that sends frames back boots alone, gets a standby, epochs go well, late, again and broken off; the standby goes live, gets
    a standby of its own, which stops, and goes on alone."""
    worked = Worked()
    ask, carry = worked.ask, worked.carry
    ask("primary", "show", "cut", f"boot {mirror.PAGES} 8 1 words {mirror.words().decode()}", "boot 2 1 1 idle", "step 60", FRAME)
    ask("primary", "arrive 00", "step 30", "show", "cut", "ack 1 0", "protect", "sector 7", "show", "text 0 0 0")
    ask("standby", "show", "piece 52", f"standby {mirror.PAGES} 8 2", "commit", "golive", "sector 0", "show")
    carry(0, 3)
    ask("standby", "commit", "show", "sector 7")
    ask("primary", FRAME, "step 40", "cut", "ack 2 0", "ack 3 0", "ack 2 9")
    carry(1, 2)
    ask("standby", "commit", "commit")
    carry(1, 1)
    ask("standby", "commit")
    ask("primary", FRAME, FRAME, "step 70", "ack 2 1", "text 1 0 9", "cut", "step 5", "cut", "show")
    ask("standby", "piece " + ask("primary", "text 2 0 600")[5:], "restart")
    carry(3, 1)
    ask("standby", "commit", "piece 00", "piece 00", "restart")
    carry(2, 4)
    ask("standby", "commit", "show", "step 1")
    ask("primary", "ack 2 2", FRAME, "step 40", "cut", "cut", "cut", "cut", "cut", "golive")
    carry(3, 1)
    ask("standby", "commit", "golive", "show", FRAME, "step 50", "protect")
    ask("third", f"standby {mirror.PAGES} 8 3")
    carry(0, 2, "standby", "third")
    ask("third", "commit", "show")
    ask("standby", "ack 3 0", FRAME, "step 40", "cut", FRAME, "step 40", "alone", "step 10", "show", "sector 0", "protect")
    return worked


def disks():
    """The same of a guest that writes its disk: it writes a sector, which the checkpoints carry."""
    worked = Worked()
    ask, carry = worked.ask, worked.carry
    ask("primary", "boot 2 8 1 disk 3 ab", "step 9", "protect", "step 20", "sector 3", "cut", "step 1", "cut")
    ask("standby", "standby 2 8 2")
    for number in 0, 1:
        carry(number, 1)
        ask("standby", "commit", "sector 3")
    ask("primary", "ack 2 1", "show")
    ask("standby", "golive", "step 5", "protect", "sector 3", "text 0 0 99999")
    return worked


def early_cut():
    """A guest that sends frames back writes its memory, and two epochs end, before any of the full checkpoint's text is asked for: so what
    that text still needs has to be kept."""
    worked = Worked()
    ask, carry = worked.ask, worked.carry
    ask("primary", f"boot {mirror.PAGES} 8 1 words {mirror.words().decode()}", "step 60", "protect")
    ask("primary", FRAME, "step 40", "cut", FRAME, "step 40", "cut")
    ask("standby", f"standby {mirror.PAGES} 8 2")
    for number in 0, 1, 2:
        carry(number, 2)
        ask("standby", "commit", "show")
    ask("primary", "ack 2 2", "show")
    return worked


def cuts_between_looks():
    """A guest of more memory than a node looks at with two lines. After each line that looks it writes all over its memory, and an epoch
    ends: of the pages that the full checkpoint's text still needs some were looked at, some weren't, and some were kept before."""
    worked = Worked()
    ask, carry = worked.ask, worked.carry
    ask("primary", f"boot {strider.PAGES} 8 1 words {strider.words(300).decode()}", "step 20", "protect", "step 30", "cut")
    for number in 0, 1:
        ask("primary", f"text {number} 0 0", "step 40", "cut")
    ask("standby", f"standby {strider.PAGES} 8 2")
    for number in 0, 1, 2, 3:
        carry(number, 2)
        ask("standby", "commit", "show")
    ask("primary", "ack 2 3", "show")
    return worked


RUNS = {"a guest that sends back": run, "a guest with a disk": disks, "a cut before the full text": early_cut,
        "cuts between lines that look": cuts_between_looks}
# Those between whose lines no text is asked for, since asking has it made.
WITHOUT_TEXTS = {"a cut before the full text", "cuts between lines that look"}
