#!/usr/bin/env python3
"""Every small schedule: lists and counts the schedules of at most 6 operations, to hold ./bench tries against.

    second/tries.py [-n B] [FILE]              the schedules of the operations in FILE, the first B of them (20,000)
    second/tries.py -c [FILE]                  how many there are, and how many lead to each outcome
    second/tries.py --numbers                  list and count those whose numbers are known, in about half a minute
    second/tries.py --against COMMAND [COUNT]  hold 'COMMAND tries' to this: fixed cases, then COUNT by chance (200)

FILE, or standard input, is a schedule text with E and D lines only. At each moment either a step is taken or the next operation begins,
if it would be accepted; a schedule ends when all have begun and nothing runs. Those that go on with a step are listed first. Where more
exist than are listed, a line on standard error says so and the status is 1.

Listing and counting share nothing but the reading, and are held to each other. The listing follows the paper: second/bench.py performs
each schedule from fresh, since its operations are generators and cannot be copied. The counting follows the step table of
second/wrong_tables.py, state by state, and lists nothing.
"""

import functools
import getopt
import os
import re
import shlex
import subprocess
import sys
import tempfile

from bench import LIMIT, Bench, TextRefused, read_schedule
from make_corpus import TEXTS, Chance
from selftest import schedule
from wrong_tables import RIGHT, Frame, Table

MOST_OPERATIONS, MOST_OUTCOMES, BOUND = 6, 1024, 20000


class Refused(Exception):
    """The line that is printed where nothing is tried."""


def read_operations(text):
    """The sizes (L, Q, N) and the operations of a text."""
    try:
        # steps have no place here: their line is as wrong as one that begins with no letter of an event
        sizes, operations = read_schedule(re.sub(rb"(?m)^S", b"-", text))
    except TextRefused as refused:
        raise Refused("T %d" % refused.args) from None
    if len(operations) > MOST_OPERATIONS:
        raise Refused("R 0 14")
    levels, queues, nodes = sizes
    if not (1 <= levels <= 16 and 1 <= queues <= 8 and queues <= nodes <= 1024):
        raise Refused("R 0 2")
    return sizes, operations


# ---------------------------------------------------------------------------------------------------
# The listing. A schedule is its counts: the steps before each operation, and at last those after all.
# Where two schedules part, one takes a step and the other begins: it is the one with the larger count.


def listed(sizes, operations, before=()):
    """Each schedule with these first counts, in order, as its counts and the bench that performed it."""
    bench = Bench(*sizes)
    for count, operation in zip(before, operations):
        bench.steps(count)
        bench.perform(*operation)
    rest, moments, taken = operations[len(before) :], [], 0
    while True:
        if rest and accepted(bench, rest[0]):
            moments.append(taken)
        if not bench.running:
            break
        bench.step()
        taken += 1
    if not rest:
        yield (*before, taken), bench
    for count in reversed(moments):
        yield from listed(sizes, operations, (*before, count))


def accepted(bench, operation):
    """Whether it would be. A begin is taken back: before its first step it has changed no more than this."""
    if bench.perform(*operation):
        return False
    begun = bench.running.pop()
    if begun.letter == "E":
        bench.memory.use[begun.node] = 0
    return True


def text_of(sizes, operations, counts):
    events = []
    for count, operation in zip(counts, [*operations, None]):
        events += [f"S {count}"] * (count > 0) + ([" ".join(map(str, operation))] if operation else [])
    return schedule(" ".join(map(str, sizes)), ", ".join(events))


def outcome_of(bench):
    """What the dequeues returned, in the order of their ends, and what is in each queue."""
    returned = (line.split(" ")[3] for line in bench.log if line.startswith("D"))
    return tuple(map(int, returned)), tuple(tuple(map(int, bench.show(q).split(" ")[2:])) for q in bench.queues)


# ---------------------------------------------------------------------------------------------------
# The counting. While an operation runs, the frames below stand still and it does not see them. So what
# comes of one, from a state of the shared words on to its end, is found once, whatever waits below: the
# ways to each end and their number. A dictionary keeps the order in which its keys came first, and here
# that is the order in which the listing meets them: ways that go on with a step before ways that begin,
# and what follows an earlier end before what follows a later one.


def unpacked(key):
    """The frame with this key."""
    f = Frame(*key[:4], None)
    f.k, f.p, f.c, f.a, f.r, f.m = key[4:10]
    return f


class Ways:
    def __init__(self, sizes, operations):
        self.L, self.Q, self.N = sizes
        self.operations = operations
        self.table = Table(*sizes)
        # the words of all other nodes stay 0
        self.nodes = sorted({*range(1, self.Q + 1), *(o[3] for o in operations if o[0] == "E" and 0 < o[3] <= self.N)})
        self.fresh = self.saved()
        self.to_end = functools.cache(self.to_end)
        self.to_all_ended = functools.cache(self.to_all_ended)

    def saved(self):
        t = self.table
        words = (t.LN, t.LQ, t.head, t.tail, (t.next[n] for n in self.nodes), (t.use[n] for n in self.nodes))
        return tuple(map(tuple, words))

    def load(self, shared):
        t = self.table
        t.LN, t.LQ, t.head, t.tail = map(list, shared[:4])
        for n, following, use in zip(self.nodes, *shared[4:]):
            t.next[n], t.use[n] = following, use

    def accepted(self, i, level, busy):
        """Whether operation i may begin: level is the highest that runs, and busy has the queues of all dequeues that run."""
        if i == len(self.operations):
            return False
        _, its_level, q, *node = self.operations[i]
        if not (level < its_level < self.L and 1 <= q <= self.Q):
            return False
        return self.Q < node[0] <= self.N and self.table.use[node[0]] == 0 if node else q not in busy

    def begin(self, i):
        """Begins operation i, and answers its frame."""
        _, _, q, *node = self.operations[i]
        if not node:
            return Frame(2, "D1", q, 0, None)
        self.table.use[node[0]] = q
        return Frame(1, "E1", q, *node, None)

    def step(self, level, f):
        """One step: None, or where it ends what it returns, as a tuple."""
        to = RIGHT[f.point](self.table, level, f)
        if not isinstance(to, str):
            return (to,) if f.op == 2 else ()
        f.point = to
        return None

    def to_end(self, level, shared, frame, i, busy):
        """The ways from here to the end of what runs at the level, operation i being next: {(words, next, returned): number}."""
        self.load(shared)
        f, returned = unpacked(frame), None
        while returned is None and not self.accepted(i, level, busy):
            returned = self.step(level, f)
        if returned is not None:
            return {(self.saved(), i, returned): 1}
        here, waits = self.saved(), f.key()
        returned, after = self.step(level, f), self.saved()
        if returned is None:
            ways = dict(self.to_end(level, after, f.key(), i, busy))
        else:
            ways = {(after, i, returned): 1}
        for (words, following, first), number in self.begun(here, i, busy).items():
            for (end, last, second), times in self.to_end(level, words, waits, following, busy).items():
                way = end, last, first + second
                ways[way] = ways.get(way, 0) + number * times
        return ways

    def begun(self, shared, i, busy):
        """The ways of operation i, from its begin on."""
        self.load(shared)
        f = self.begin(i)
        return self.to_end(self.operations[i][1], self.saved(), f.key(), i + 1, busy | {f.q} if f.op == 2 else busy)

    def to_all_ended(self, shared, i):
        """The ways from here, where nothing runs: {(returned, words): number}."""
        if i == len(self.operations):
            return {((), shared): 1}
        self.load(shared)
        ways = {}
        if self.accepted(i, -1, frozenset()):
            for (words, following, first), number in self.begun(shared, i, frozenset()).items():
                for (second, end), times in self.to_all_ended(words, following).items():
                    way = first + second, end
                    ways[way] = ways.get(way, 0) + number * times
        return ways

    def tables(self):
        """How many schedules lead to each (returned, words at the end)."""
        return self.to_all_ended(self.fresh, 0)

    def outcomes(self):
        """How many lead to each (returned, lists of the queues)."""
        found = {}
        for table, number in self.tables().items():
            outcome = self.outcome(*table)
            found[outcome] = found.get(outcome, 0) + number
        return found

    def outcome(self, returned, end):
        self.load(end)
        return returned, tuple(map(self.listing, range(1, self.Q + 1)))

    def listing(self, q):
        nodes, node = [], self.table.head[q]
        while node:
            nodes.append(node)
            node = self.table.next[node]
        return tuple(n for n in nodes if n != q)


sys.setrecursionlimit(10000)  # some calls for each move, and a schedule has up to a few hundred

# ---------------------------------------------------------------------------------------------------
# What is printed.


def outcome_words(returned, lists):
    words = ["returned", *(node or "empty" for node in returned)]
    for q, nodes in enumerate(lists, 1):
        words += ["queue", q, *nodes]
    return " ".join(map(str, words))


def counts_of(sizes, operations):
    outcomes = Ways(sizes, operations).outcomes()
    lines = [f"{number} {outcome_words(*outcome)}" for outcome, number in outcomes.items()][:MOST_OUTCOMES]
    other = sum(list(outcomes.values())[MOST_OUTCOMES:])
    return [f"schedules {sum(outcomes.values())}"] + lines + [f"{other} other"] * (other > 0)


def answer(text, bound=BOUND, counting=False):
    """What is printed, in parts, the last of them None where there are more schedules than the bound."""
    try:
        sizes, operations = read_operations(text)
    except Refused as refused:
        yield b"%s\n" % refused.args[0].encode()
        return
    if counting:
        yield "".join(line + "\n" for line in counts_of(sizes, operations)).encode()
        return
    for number, (counts, _) in enumerate(listed(sizes, operations)):
        if number == bound:
            yield None
            return
        yield text_of(sizes, operations, counts)


# ---------------------------------------------------------------------------------------------------
# The numbers that are known: operations on one queue, as letter and level, each enqueue with a node of its
# own; how many schedules, and the moves of the longest.

NUMBERS = [
    ("", 1, 0),
    ("E0 E1", 11, 28),
    ("E0 D1", 11, 38),
    ("E0 E1 E1", 69, 45),
    ("E0 E1 E2", 214, 49),
    ("E0 E1 D2", 214, 61),
    ("D0 E1 E2", 79, 53),
    ("E0 E1 E1 E1 E1 E1", 4458, 96),
    ("E0 E1 E2 E3", 5643, 72),
    ("E0 E0 D0 E1 E2", 556, 83),
    ("E0 E0 D0 E1 E2 E3", 15547, 106),
    ("E0 E1 E2 E1 E2 D0", 22769, 110),
    ("E0 E1 E2 E3 E4", 183639, None),
    ("E0 E1 E2 E3 E4 E5", 7054138, None),
    ("E12 E13 E14 E15", 41317, 120),
]


def short(words, Q=1, N=None):
    """Sizes and operations from 'E0 D1', or with queues 'E0 D1:2': enqueues take the nodes from Q + 1 on."""
    operations, node = [], Q
    for letter, level, queue in re.findall(r"([ED])(\d+)(?::(\d+))?", words):
        node += letter == "E"
        operations.append((letter, int(level), int(queue or 1)) + (node,) * (letter == "E"))
    L = max((level for _, level, *_ in operations), default=0) + 1
    return [L, Q, N or node], operations


def held(sizes, operations):
    """The outcomes, counted and, but for the bound, listed; the counts of the longest schedule, or None where not all were listed."""
    counted, found, longest = Ways(sizes, operations).outcomes(), {}, None
    if sum(counted.values()) <= 50000:
        longest = 0
        for counts, bench in listed(sizes, operations):
            outcome = outcome_of(bench)
            found[outcome] = found.get(outcome, 0) + 1
            longest = max(longest, sum(counts) + len(operations))
        if list(found.items()) != list(counted.items()):
            sys.exit(f"tries: listing and counting differ for {operations}, sizes {sizes}")
    return counted, longest


def try_numbers():
    failed = 0
    for words, known, moves in NUMBERS:
        counted, longest = held(*short(words))
        number = sum(counted.values())
        wrong = number != known or moves != longest
        failed += wrong
        print(f"{'WRONG ' * wrong}{words or 'none'}: {number:,} schedules, {len(counted)} outcomes, "
              f"{'not listed' if longest is None else f'longest {longest}'}", flush=True)  # fmt: skip
    finish(len(NUMBERS) - failed, failed)


def finish(passed, failed):
    print(f"{passed} passed, {failed} failed")
    sys.exit(failed > 0)


# ---------------------------------------------------------------------------------------------------
# Another program against this one.

FIXED = {  # sizes, operations
    "none": ("1 1 1", ""),
    "none, all sizes at their most": ("16 8 1024", ""),
    "one enqueue": ("1 1 2", "E 0 1 2"),
    "one dequeue": ("1 1 1", "D 0 1"),
    "at one level": ("1 1 4", "E 0 1 2, E 0 1 3, D 0 1, D 0 1, D 0 1"),
    "three nested": ("3 1 4", "E 0 1 2, E 1 1 3, E 2 1 4"),
    "levels falling": ("3 1 4", "E 2 1 2, E 1 1 3, E 0 1 4"),
    "level taken": ("2 1 4", "E 1 1 2, E 1 1 3, E 0 1 4"),
    "a dequeue above": ("3 1 4", "E 0 1 2, E 1 1 3, D 2 1"),
    "a dequeue below": ("3 1 4", "E 0 1 2, D 0 1, E 1 1 3, E 2 1 4"),
    "a dequeue over a dequeue": ("2 1 3", "E 0 1 2, D 0 1, D 1 1"),
    "dequeues of two queues": ("2 2 4", "E 0 2 3, D 0 1, D 1 2"),
    "four queues": ("3 4 7", "E 0 4 5, E 1 3 6, E 2 4 7, D 0 4"),
    "eight queues": ("2 8 10", "E 0 8 9, E 1 8 10, D 1 8, D 0 1"),
    "a node in two queues by turns": ("2 2 3", "E 0 1 3, D 1 1, E 0 2 3, D 1 2"),
    "a node twice, never out": ("2 1 3", "E 0 1 2, E 1 1 2"),
    "a node twice, out between": ("2 1 3", "E 0 1 2, D 1 1, E 1 1 2"),
    "a node free in some schedules": ("2 1 4", "E 0 1 2, E 0 1 3, D 1 1, E 0 1 3, D 1 1"),
    "six at one level": ("1 1 7", "E 0 1 2, D 0 1, E 0 1 3, D 0 1, E 0 1 4, D 0 1"),
    "six, by twos": ("2 1 7", "E 0 1 2, E 1 1 3, E 0 1 4, E 1 1 5, D 0 1, E 1 1 6"),
    "six, more than are listed": ("3 1 7", "E 0 1 2, E 1 1 3, E 2 1 4, E 1 1 5, E 2 1 6, D 0 1"),
    "16 levels": ("16 1 4", "E 0 1 2, E 7 1 3, E 15 1 4"),
    "16 levels, 1,024 nodes": ("16 1 1024", "E 13 1 1024, E 14 1 2, D 15 1"),
    "16 levels, 8 queues, 1,024 nodes": ("16 8 1024", "E 3 8 1024, E 15 8 9, D 2 8"),
    "never: the level": ("2 1 4", "E 0 1 2, E 2 1 3"),
    "never: the level, far": ("2 1 4", "E 65535 1 2"),
    "never: queue 0": ("2 1 4", "E 0 0 2"),
    "never: the queue": ("2 1 4", "E 0 1 2, D 1 2"),
    "never: node 0": ("2 1 4", "E 0 1 0"),
    "never: the sentinel": ("2 1 4", "E 0 1 2, E 1 1 1"),
    "never: another sentinel": ("2 2 4", "E 0 1 2"),
    "never: the node": ("2 1 4", "E 0 1 2, E 1 1 5"),
    "never: no user's node": ("2 2 2", "D 0 1, E 1 2 2"),
    "seven": ("1 1 1", ", ".join(["D 0 1"] * 7)),
    "many": ("1 1 1", ", ".join(["D 0 1"] * 5000)),
    "seven before sizes": ("0 1 1", ", ".join(["D 0 1"] * 7)),
    "L 0": ("0 1 4", "E 0 1 2"),
    "L 17": ("17 1 4", ""),
    "Q 0": ("1 0 4", ""),
    "Q 9": ("1 9 9", ""),
    "N below Q": ("1 2 1", ""),
    "N 1,025": ("1 1 1025", "E 0 1 2"),
    "a step": ("2 1 4", "S 1"),
    "a step in between": ("2 1 4", "E 0 1 2, S 4, E 1 1 3"),
    "a step before a wrong line": ("2 1 4", "E 0 1 2, S 4, E 01 1 3"),
    "a step after a wrong line": ("2 1 4", "E 0 1 02, S 4"),
    "a step after seven": ("2 1 4", ", ".join(["D 0 1"] * 7 + ["S 1"])),
    "a step, sizes wrong": ("0 0 0", "S 1"),
    "no steps": ("2 1 4", "E 0 1 2, S 0"),
}
MANY = ["E0 E1 E2 E3", "E0 E0 D0 E1 E2 E3", "E0 E1 E2 E3 E4", "E0 E1 E2 E3 E4 E5"]  # long to list: some bounds only


def by_chance(seed):
    """The text of a few operations, most of them accepted at some time, with no more than 3,000 schedules."""
    chance = Chance(seed)
    while True:
        L, Q = chance.among(1, 2, 2, 3, 3, 4, 16), chance.among(1, 1, 1, 2, 3)
        N, level, operations = min(1024, Q + chance.among(1, 3, 4, 6, 6, 6, 30, 1024)), 0, []
        for node in range(Q + 1, Q + 1 + chance.below(MOST_OPERATIONS + 1)):
            level = (level + chance.among(0, 1, 1, 2, 15)) % L if chance.often(0.7) else chance.below(L)
            q = 1 + chance.below(Q) if chance.often(0.97) else chance.below(Q + 2)
            if chance.often(0.3):
                operations.append(("D", level, q))
            else:
                node = node if chance.often(0.8) else chance.among(Q + 1, Q + 2, N) if chance.often(0.9) else chance.below(N + 2)
                operations.append(("E", level + L * chance.often(0.01), q, node))
        if sum(Ways((L, Q, N), operations).outcomes().values()) <= 3000:
            return schedule(f"{L} {Q} {N}", ", ".join(" ".join(map(str, each)) for each in operations))


def cases(count):
    """(name, text, options of each run)."""
    for name, (sizes, operations) in FIXED.items():
        text = schedule(sizes, operations)
        yield name, text, [[], ["-c"], *bounds_of(text)]
    for words in MANY:
        sizes, operations = short(words)
        text = schedule(" ".join(map(str, sizes)), ", ".join(" ".join(map(str, each)) for each in operations))
        yield words, text, [["-c"], ["-n", "0"], ["-n", "1000"]]
    for name, text in TEXTS.items():
        yield name, text, [[]]
    yield "longest text", b"3\n1\n1\n1\n0\n".ljust(LIMIT, b"x"), [[], ["-c"]]
    yield "longer text", b"3\n1\n1\n1\n0\n".ljust(LIMIT + 1, b"x"), [[], ["-c"]]
    for seed in range(count):
        text = by_chance(seed)
        held(*read_operations(text))
        yield f"chance {seed}", text, [[], ["-c"], Chance(seed + 0.5).among(*bounds_of(text))]


def bounds_of(text):
    """None, one, one less than all, all and one more."""
    try:
        every = sum(Ways(*read_operations(text)).outcomes().values())
    except Refused:
        every = 0
    return [["-n", str(bound)] for bound in sorted({0, 1, max(0, every - 1), every, every + 1})]


def differs(command, path, text, options):
    """What another program prints otherwise than this one, or None."""
    counting, bound = "-c" in options, int(options[1]) if "-n" in options else BOUND
    due = list(answer(text, bound, counting))
    more = due[-1:] == [None]
    due = b"".join(due[:-1] if more else due)
    ran = subprocess.run([*shlex.split(command), "tries", *options, path], capture_output=True)
    if ran.stdout != due:
        at = len(os.path.commonprefix([ran.stdout, due]))
        return f"from byte {at} on it has {ran.stdout[at:][:60]!r}, due is {due[at:][:60]!r}"
    said = [line for line in ran.stderr.splitlines() if not line.startswith(b"tries: still at work")]
    if ran.returncode != more or bool(said) != more:
        return f"status {ran.returncode}, on standard error {ran.stderr[:200]!r}; there are {'' if more else 'no '}more"
    return None


def try_against(command, count):
    passed = failed = 0
    with tempfile.TemporaryDirectory() as folder:
        path = folder + "/operations"
        for name, text, runs in cases(count):
            with open(path, "wb") as file:
                file.write(text)
            for options in runs:
                wrong = differs(command, path, text, options)
                if wrong:
                    failed += 1
                    print(f"FAILED {name} {' '.join(options)}: {wrong}\n{text[:400]!r}", flush=True)
                else:
                    passed += 1
    finish(passed, failed)


# ---------------------------------------------------------------------------------------------------


def print_answer(path, bound, counting):
    with open(path, "rb") if path else sys.stdin.buffer as file:
        text = file.read()
    for part in answer(text, bound, counting):
        if part is None:
            sys.exit(f"tries: there are more schedules than the {bound} that are listed")
        sys.stdout.buffer.write(part)


def main(words):
    if words in (["--help"], ["-h"]):
        return print(__doc__.strip())
    if words == ["--numbers"]:
        return try_numbers()
    if words[:1] == ["--against"] and (len(words) == 2 or len(words) == 3 and re.fullmatch("[0-9]{1,6}", words[2])):
        return try_against(words[1], int(words[2]) if words[2:] else 200)
    options, files = getopt.getopt(words, "cn:")
    options = dict(options)
    bound = options.get("-n", str(BOUND))
    if len(files) > 1 or not re.fullmatch("[0-9]{1,10}", bound):
        raise getopt.GetoptError("one FILE, and a number after -n")
    print_answer(files[0] if files else None, int(bound), "-c" in options)


if __name__ == "__main__":
    try:
        main(sys.argv[1:])
    except getopt.GetoptError as wrong:  # status 1 has its meaning
        print(f"tries: {wrong}; second/tries.py --help says what there is", file=sys.stderr)
        sys.exit(2)
