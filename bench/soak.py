#!/usr/bin/env python3
"""Checks what a long run of a pair in threads wrote down (bench/threads/soak.rattle): `soak.py LOG`. It accepts the run where one guest
that never fails could have given all answers, as far as these tell:

- The numbers of delivered frames rise in each client's order, and those of all clients are 1, 2, 3 and so on, with none missing.
- What a client takes is what bench/threads/count.c sends it: its own questions, in order, none twice, each after it was delivered. The
  guest's numbers rise too, and none was given to two clients. Wherever two successive numbers were taken, by whichever clients, the chain
  of the second is that of the first, gone on by its client and question. So what came after a failure goes on from what was released
  before.
- The length of the history is that of all calls, losses, landings, the arrivals and steps of the epochs that entered it, and the frames
  that failures took. An epoch entered that was committed, that was pending where the backup failed, that has a full checkpoint, or that
  is of a node that was alone. A failure takes the frames that were handed out to the guest, and whose epoch didn't enter. So no box was
  ever full.
- A runner submitted nothing once another was live.

Not checked: the order of entries between clients, beyond the guest's numbers. Then it alters what was written down in a few ways, each of
which must be refused."""
import collections
import sys

GUEST, KIND = bytes.fromhex("020000000001"), bytes.fromhex("88b5")
FACTOR, WIDE = 0x100000001B3, 2**64


class Refused(Exception):
    """No guest that never fails gives these answers."""


def read(lines):
    """The lines of each member, by its name. They stay lines, of which equal short ones are one: ten minutes are 60 million of them."""
    logs, at = collections.defaultdict(list), None
    for line in lines:
        line = line.rstrip("\n")
        if line.startswith("client "):
            at = logs["client", int(line.split()[1])]
        elif line in ("line", "runner", "warden", "backup"):
            at = logs[line]
        elif line.startswith("entries "):
            logs["entries"] = int(line.split()[1])
        else:
            at.append(sys.intern(line) if len(line) < 8 else line)
    return logs


def firsts(log):
    """How many lines of a member begin with each word."""
    return collections.Counter(line.split(None, 1)[0] for line in log)


def wanted(holds, *what):
    if not holds:
        raise Refused(*what)


def gone_on(chain, client, question):
    """The chain after a question."""
    return (chain ^ client << 56 ^ question) * FACTOR % WIDE


def taken_frame(client, frame):
    """The question, the guest's number and the chain of a frame that the client took."""
    wanted(len(frame) == 38 and frame[:14] == bytes([2, 0, 0, 0, 1, client]) + GUEST + KIND, "no frame of the guest's", client, frame.hex())
    return (int.from_bytes(frame[at:at + 8], "little") for at in (14, 22, 30))


def check_client(client, log, numbers, answers):
    """Checks one client's answers. Adds the numbers that it was given, and the guest's answers that it took."""
    delivered, last_number, last_asked, last_answer = set(), 0, 0, 0
    for line in log:
        if line.startswith("d "):
            question, number = map(int, line.split()[1:])
            wanted(number > last_number, "a client's numbers fall", client, number)
            last_number = number
            delivered.add(question)
            numbers.append(number)
        elif line.startswith("t "):
            question, answer, chain = taken_frame(client, bytes.fromhex(line.split()[1]))
            wanted(question in delivered, "an answer to what wasn't asked", client, question)
            wanted(question > last_asked and answer > last_answer, "answers twice or out of order", client, question, answer)
            last_asked, last_answer = question, answer
            wanted(answer not in answers, "a number of the guest's given twice", client, answer)
            answers[answer] = (client, question, chain)


def check_chain(answers):
    """Checks the chain over successive answers. Answers how many pairs there were."""
    if 1 in answers:
        client, question, chain = answers[1]
        wanted(chain == gone_on(0, client, question), "the first answer")
    pairs = 0
    for answer, (client, question, chain) in answers.items():
        if answer - 1 in answers:
            pairs += 1
            wanted(chain == gone_on(answers[answer - 1][2], client, question), "another guest's answer", answer, client, question)
    return pairs


def entered(logs):
    """The arrivals and steps of the epochs that entered the history, and how many frames were taken by failures."""
    ended, generation = {}, 1
    for line in logs["warden"]:
        ended[generation] = line.split()[0]
        # Going live begins a generation, and so does a new backup.
        generation += 2 if ended[generation] == "primary" else 1
    # An epoch with a full checkpoint, number 0, enters at once.
    last = collections.defaultdict(int)
    for line in logs["backup"]:
        if line.startswith("c "):
            committed, number = map(int, line.split()[1:])
            last[committed] = max(last[committed], number)
    arrivals = steps = handed = open_at_end = 0
    for line in logs["runner"]:
        name, *words = line.split()
        wanted(name != "old", "a runner submitted that wasn't live")
        if name == "e":
            open_at_end += int(words[0])
            continue
        *sealed, arrived, made, out = map(int, words)
        handed += out
        if sealed and sealed[1] > last[sealed[0]] and ended.get(sealed[0]) != "backup":
            open_at_end += arrived * (sealed[0] not in ended)
            continue
        arrivals += arrived
        steps += made
    return arrivals, steps, handed - arrivals - open_at_end


def check(logs):
    """Refuses a run, or answers what is to be printed of it."""
    numbers, answers = [], {}
    clients = sorted(name[1] for name in logs if name[0] == "client")
    for client in clients:
        check_client(client, logs["client", client], numbers, answers)
    wanted(sorted(numbers) == list(range(1, len(numbers) + 1)), "a number is missing or given twice")
    pairs = check_chain(answers)
    calls = sum(len(logs["client", client]) for client in clients)
    lost = firsts(logs["line"])
    arrivals, steps, failed = entered(logs)
    landed = len(answers) + lost["out"]
    told = sum(int(line.split()[1]) for log in ("backup", "warden") for line in logs[log] if line.startswith(("k ", "backup ")))
    wanted(told <= landed, "more was said to have landed than came", told, landed)
    wanted(len(numbers) >= arrivals + lost["in"] + failed, "more arrived than was delivered")
    wanted(max(answers, default=0) <= arrivals, "the guest numbered more than arrived")
    said = calls + sum(lost.values()) + landed + arrivals + steps + failed
    wanted(said == logs["entries"], "another length of the history", said, logs["entries"])
    failures = firsts(logs["warden"])
    return (f"{len(clients)} clients: {calls} calls, {len(numbers)} frames delivered, {arrivals} arrived, {len(answers)} taken, "
            f"{lost['in']} and {lost['out']} lost by the line, {failed} by failures\n"
            f"{failures['primary']} failures of a primary, {failures['backup']} of a backup, {pairs} pairs of successive answers\n"
            f"the history has {logs['entries']} entries, as many as the answers tell")


def altered(logs):
    """The same run, with something altered: what was altered, and the run."""
    def copy():
        return {name: list(log) if isinstance(log, list) else log for name, log in logs.items()}

    clients = [name for name in logs if name[0] == "client"]
    taken = {name: [at for at, line in enumerate(logs[name]) if line.startswith("t ")] for name in clients}
    one = max(clients, key=lambda name: len(taken[name]))
    other = next(name for name in clients if name != one)
    first, second, *_ = taken[one]

    run = copy()
    run[one][first], run[one][second] = run[one][second], run[one][first]
    yield "two frames in another order", run
    run = copy()
    run[one].append(run[one][second])
    yield "a frame twice", run
    run = copy()
    run[other].append(run[one][second])
    yield "a frame to another client", run
    run = copy()
    run[one].remove(run[one][second])
    yield "a frame that nobody took", run
    run = copy()
    at = next(at for at, line in enumerate(run[one]) if line.startswith("d "))
    run[one][at] = f"d {run[one][at].split()[1]} 0"
    yield "a number that isn't there", run
    seen = {int.from_bytes(bytes.fromhex(logs[name][at][2:])[22:30], "little"): (name, at) for name in clients for at in taken[name]}
    name, at = next(seen[answer] for answer in sorted(seen) if answer - 1 in seen)
    run = copy()
    run[name][at] = f"{run[name][at][:-2]}{int(run[name][at][-2:], 16) ^ 1:02x}"
    yield "the answer of a guest with another past", run
    run = copy()
    run["entries"] += 1
    yield "one entry more", run
    run = copy()
    run["runner"] = run["runner"] + ["old"]
    yield "an old runner's submit", run


def main():
    with open(sys.argv[1]) as log:
        logs = dict(read(log))
    for name in ("line", "runner", "backup", "warden"):
        logs.setdefault(name, [])
    print(check(logs))
    for what, run in altered(logs):
        try:
            check(run)
        except Refused:
            continue
        sys.exit(f"accepted: {what}")
    print("accepted; refused with each of 8 things altered")


if __name__ == "__main__":
    try:
        main()
    except Refused as why:
        sys.exit(f"refused: {why.args}")
