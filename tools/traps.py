"""What the guest of a script stays at, if it does: a trap that it has no handler for, the end of its main, a loop in which nothing is
written; and whether its stack has overflowed. `remus sim` plays the script, `remus node` then has a guest that takes in the same frames
after the same steps, and its checkpoints have its registers."""
import subprocess
from pathlib import Path

from oracle.checkpoints import read_stream

ROOT = Path(__file__).resolve().parent.parent
CAUSES = {0: "a jump to an address that isn't a multiple of 4", 1: "the pc is outside memory", 2: "an illegal instruction", 3: "EBREAK",
          4: "a load that isn't aligned", 5: "a load from where nothing is", 6: "a store that isn't aligned",
          7: "a store to where nothing is", 11: "ECALL, which nothing answers"}
MEMORY, PAGE, BLOCK = 0x80000000, 4096, 64
STAYS = 0x0000006F  # a jump to itself
CALL, SETS_SP = 0x0E7, 0x117  # of words their lowest 12 bits: jalr ra, ..(ra), and auipc sp, .. (guests/lib/start.s)
START = 16  # words at most, with the call of main and what stands behind it
A0, SP = 9, 1  # the places of registers
INTERRUPTS_ON = 8  # mstatus' bit MIE
CUTS, LONGEST = 3, 64  # checkpoints behind a full one, at most; and instructions of a loop that is looked for
PC, HEAD, WRITTEN = 284, 536, slice(524, 536)  # of a checkpoint's text, by docs/CHECKPOINT.md
PATIENCE = 20  # seconds
FIRST_STEPS = 100_000  # of a guest that is given no steps: a boot line alone, as guests/make prints it


class Unknown(Exception):
    """The program has no nodes, or didn't answer as one."""


def taken_in(lines, answers):
    """What the guest took in and did, by the lines of a script that were answered: frames, as hex, and the step counts that it came to. The
    history of a stopped primary ends with the last step that its backup goes on from."""
    frames, acts, answers = {}, [], iter(answers)
    for line in lines:
        if not line or line.startswith("#"):
            continue
        fields, answer = line.split(" "), next(answers, "").split(" ")
        if answer[0] == "delivered":
            frames.setdefault(int(fields[1]), []).append(fields[2])
        elif answer[0] == "admitted":
            acts.append(frames[int(fields[1])].pop(0))
        elif answer[0] == "dropped" and fields[0] == "losein":
            frames[int(fields[1])].pop(int(fields[2]))
        elif answer[0] == "steps":
            acts.append(int(answer[1]))
        elif answer[0] == "live":
            acts = up_to(acts, int(answer[3]))
    return acts


def up_to(acts, steps):
    """These acts up to that step count."""
    found = []
    for act in acts:
        if isinstance(act, int) and act >= steps:
            return [*found, steps]
        found.append(act)
    return found


class Node:
    """A node that is alone, with a guest."""

    def __init__(self, program, boot):
        pipes = {"stdin": subprocess.PIPE, "stdout": subprocess.PIPE, "stderr": subprocess.DEVNULL}
        self.process = subprocess.Popen([program, "node"], text=True, **pipes)
        self.steps = 0
        self.ask(boot, "booted")

    def ask(self, line, word):
        """The fields of the answer, which begins with this word."""
        try:
            self.process.stdin.write(line + "\n")
            self.process.stdin.flush()
        except BrokenPipeError:
            raise Unknown from None
        answer = self.process.stdout.readline().split()
        if not answer or answer[0] != word:
            raise Unknown
        return answer

    def step_to(self, steps):
        """A step may end early, where the outbox is full; what it held is sent then."""
        while self.steps < steps:
            answer = self.ask(f"step {steps - self.steps}", "steps")
            came, frames = int(answer[1]), int(answer[-1])
            for _ in range(frames):
                self.process.stdout.readline()
            if came <= self.steps:
                raise Unknown
            self.steps = came

    def checkpoint(self, pages, sectors):
        most = self.ask("protect", "protecting")[2]
        found, _ = read_stream(bytes.fromhex(self.ask(f"text 0 0 {most}", "text")[1]), pages, sectors)
        if not found:
            raise Unknown
        return found[0]

    def heads(self, count):
        """The texts' heads of so many checkpoints, each a step after the one before."""
        found = []
        while len(found) < count:
            self.alone()
            self.ask("protect", "protecting")
            for number in range(1, CUTS + 1):
                self.ask("step 1", "steps")
                self.ask("cut", "cut")
                found.append(bytes.fromhex(self.ask(f"text {number} 0 {HEAD}", "text")[1]))
        return found[:count]

    def alone(self):
        for _ in range(int(self.ask("alone", "alone")[3])):
            self.process.stdout.readline()

    def close(self):
        self.process.kill()
        self.process.communicate()


class Image:
    """The guest of a boot line."""

    def __init__(self, boot):
        fields = boot.split(" ")
        self.pages, self.sectors = int(fields[1]), int(fields[2])
        self.words = [int(word, 16) for word in fields[5:]]
        self.end, self.memory_end = MEMORY + 4 * len(self.words), MEMORY + PAGE * self.pages

    def is_end_of_main(self, pc):
        """Whether this jump to itself is the one behind the start's call of main."""
        place = (pc - MEMORY) // 4
        return 0 < place <= min(START, len(self.words) - 1) and self.words[place - 1] & 0xFFF == CALL

    def overflow(self, sp):
        """Where the stack pointer is beyond the guest's memory, or in its image, if so."""
        if self.words[0] & 0xFFF != SETS_SP or sp == 0 or self.end <= sp <= self.memory_end:
            return None
        return f"its stack has overflowed: sp is {sp:08x}, and it has from {self.end:08x}, where the image ends, to {self.memory_end:08x}"


def word_at(checkpoint, address):
    page, place = divmod(address - MEMORY, PAGE)
    block = checkpoint.page_records.get(page, {}).get(place // BLOCK, bytes(BLOCK))
    return int.from_bytes(block[place % BLOCK:place % BLOCK + 4], "little")


def told(checkpoint, image):
    """What a guest stays at, or None where it goes on; and whether its stack has overflowed."""
    stays = checkpoint.pc >= MEMORY and word_at(checkpoint, checkpoint.pc) == STAYS
    if stays and image.is_end_of_main(checkpoint.pc):
        said = f"main has returned, with {checkpoint.registers[A0]}, and the guest stays at {checkpoint.pc:08x}, behind its call"
    else:
        said = trapped(checkpoint, stays) or (stayed(checkpoint) if stays else None)
    return "; ".join(filter(None, (said, image.overflow(checkpoint.registers[SP])))) or None


def stayed(checkpoint):
    """Of a guest that stays at a jump to itself, and had no trap."""
    until = ", until an interrupt comes" if checkpoint.csrs[0] & INTERRUPTS_ON and checkpoint.csrs[1] else ""
    return f"the guest stays at {checkpoint.pc:08x}, a jump to itself{until}"


def loop(heads):
    """The loop that a guest is in by the heads of its checkpoints, one a step, or None."""
    pcs = [int.from_bytes(head[PC:PC + 8], "little") for head in heads]
    length = next((length for length in range(1, LONGEST + 1) if pcs[length:] == pcs[:-length]), None)
    if length is None or any(any(head[WRITTEN]) for head in heads):
        return None
    return (f"the guest is in a loop of {length} instructions, {min(pcs):08x} to {max(pcs):08x}, in which it writes and sends nothing: it "
            "waits there for something, or stays for good")


def trapped(checkpoint, stays):
    """The trap that a guest stays at, if it does."""
    _, _, mtvec, _, mepc, mcause, mtval = checkpoint.csrs
    if mcause >> 63 or mcause not in CAUSES:
        return None
    what = f"cause {mcause} at {mepc:08x} ({CAUSES[mcause]}; {mtval:x})"
    if checkpoint.pc == 0 and mtvec == 0 and mcause == 1:
        return f"the guest trapped, has no handler, and traps at 0 again and again: {what}"
    if stays and checkpoint.pc == mtvec & ~3:
        return f"the guest trapped: {what}"
    if stays and (mcause, mepc, mtval) != (0, 0, 0):
        return f"the guest stays at {checkpoint.pc:08x}; the last trap it had was {what}"
    return None


def trap(program, script):
    """What the guest of this script, as bytes, stays at, in words, or None; also where the program can't tell."""
    lines = script.decode(errors="replace").splitlines()
    boot = next((line for line in lines if line and not line.startswith("#")), "")
    if not program or not boot.startswith("boot ") or " words " not in boot:
        return None
    try:
        played = subprocess.run([program, "sim", "/dev/stdin"], input=script, stdout=subprocess.PIPE, stderr=subprocess.DEVNULL,
                                timeout=PATIENCE)
        acts = taken_in(lines, played.stdout.decode().splitlines())
        return after(program, boot, acts or [FIRST_STEPS])
    except (OSError, Unknown, subprocess.TimeoutExpired):
        return None


def after(program, boot, acts):
    node, image = Node(program, boot), Image(boot)
    try:
        for act in acts:
            if isinstance(act, int):
                node.step_to(act)
            else:
                node.ask(f"arrive {act}", "arrived")
        return told(node.checkpoint(image.pages, image.sectors), image) or loop(node.heads(2 * LONGEST))
    finally:
        node.close()


def built_program():
    """The program where it is built or came with the sources; nothing is built for this."""
    places = (ROOT / "crates" / "remus" / "out" / "remus", ROOT / "prebuilt" / "remus")
    return next((str(place) for place in places if place.is_file()), None)
