#!/usr/bin/env python3
"""Makes the schedules of crates/corpus/stdin: by hand for each rule of docs/SCHEDULE.md and docs/STEPS.md, and by chance.

    second/make_corpus.py DIR    writes DIR/stdin; second/bench.py --write DIR then makes DIR/stdout

The same schedules come out each time: chance is random.Random(seed).random() alone.
"""

import os
import random
import sys

from bench import LIMIT, Bench, header
from selftest import HERE, RUNS, schedule

# ---------------------------------------------------------------------------------------------------
# By hand: events, for L 3, Q 2, N 6.

EVENTS = {
    # each refusal of a begin, at both sides of its limit, and which comes first
    "e-3-level-is-l": "E 3 1 3",
    "e-3-level-65535": "E 65535 1 3",
    "e-3-before-4-5": "E 3 0 0",
    "e-highest-level": "E 2 1 3, S 12",
    "e-4-queue-0": "E 0 0 3",
    "e-4-queue-above": "E 0 3 3",
    "e-4-queue-65535": "E 0 65535 3",
    "e-4-before-5": "E 0 0 1",
    "e-5-node-0": "E 0 1 0",
    "e-5-own-sentinel": "E 0 1 1",
    "e-5-other-sentinel": "E 0 1 2",
    "e-5-node-above": "E 0 1 7",
    "e-5-node-65535": "E 0 1 65535",
    "e-5-before-6": "E 1 1 3, E 1 1 2",
    "e-lowest-and-highest-node": "E 0 2 3, S 10, E 0 2 6, S 10",
    "e-6-same-level": "E 1 1 3, S 4, E 1 2 4",
    "e-6-level-above-runs": "E 1 1 3, S 4, E 0 2 4",
    "e-6-a-dequeue-runs": "E 0 1 3, S 10, D 1 1, S 3, E 1 2 4",
    "e-6-before-7": "E 1 1 3, E 0 1 3",
    "e-7-on-its-way-in": "E 0 1 3, S 5, E 1 1 3",
    "e-7-in-this-queue": "E 0 1 3, S 10, E 0 1 3",
    "e-7-in-another-queue": "E 0 1 3, S 10, E 0 2 3",
    "e-7-on-its-way-out": "E 0 1 3, S 10, D 0 1, S 21, E 1 1 3",
    "e-free-again": "E 0 1 3, S 10, D 0 1, S 22, E 0 2 3, S 10, D 0 2, S 22, E 0 1 3, S 10",
    "d-3-level-is-l": "D 3 1",
    "d-3-level-65535": "D 65535 1",
    "d-3-before-4": "D 3 0",
    "d-highest-level": "E 2 1 3, S 12, D 2 1, S 24",
    "d-4-queue-0": "D 0 0",
    "d-4-queue-above": "D 0 3",
    "d-4-queue-65535": "D 0 65535",
    "d-4-before-6": "D 1 1, D 1 3",
    "d-6-same-level": "D 1 1, D 1 2",
    "d-6-level-above-runs": "E 2 2 3, S 1, D 0 1",
    "d-6-before-8": "D 1 1, D 0 1",
    "d-8-dequeue-below": "D 0 1, D 1 1",
    "d-8-two-levels-below": "D 0 1, E 1 1 3, S 2, D 2 1",
    "d-8-while-its-sentinel-goes-in": "E 0 1 3, S 10, D 0 1, S 12, D 2 1",
    "d-over-a-dequeue-of-another-queue": "E 0 2 3, S 10, D 0 1, S 1, D 1 2, S 24",
    "d-again-once-the-first-ended": "D 0 1, S 2, D 0 1, S 2, D 1 1, S 2",
    # steps
    "s-9-on-fresh": "S 1",
    "s-9-after-an-end": "E 0 1 3, S 10, S 1",
    "s-9-its-steps-stand": "E 0 1 3, S 4, S 60000",
    "s-9-over-two-ends": "E 0 1 3, S 4, E 1 1 4, S 65535",
    "s-exactly-spent": "E 0 1 3, S 4, E 1 1 4, S 20",
    "s-over-two-ends": "E 0 1 3, S 3, E 1 1 4, S 3, E 2 1 5, S 36",
    "s-one-by-one": "E 0 1 3" + ", S 1" * 10,
    # what follows a refusal is not performed, and the queues are shown as they stand
    "r-stops-the-events": "E 0 1 3, S 10, E 0 1 2, E 0 1 4, S 10",
    "r-with-a-queue-not-quiet": "E 0 2 3, S 5, E 0 1 4, S 5",
    "u-both-queues": "E 0 2 3, S 5, E 1 1 4, S 5",
    "u-begun-and-no-step": "E 0 1 3",
    "u-a-dequeue-begun": "E 0 1 3, S 10, D 0 1",
    "u-one-step-before-its-end": "E 0 1 3, S 9",
    "no-events": "",
    # the paper's two hardest places
    "d-over-an-unlinked-enqueue": "E 0 1 3, S 10, E 0 1 4, S 4, D 1 1, S 21, S 7, D 0 1, S 6",
    "d-over-a-linked-enqueue": "E 0 1 3, S 10, E 0 1 4, S 5, D 1 1, S 28, D 1 1, S 2, S 5",
    "e-over-a-dequeue-at-each-third-step": "E 0 1 3, S 10, D 0 1, S 3, E 1 1 4, S 11, S 3, E 1 1 5, S 11, S 3, E 1 1 6, S 13, S 14",
    "sentinel-recycled-over-a-stall": "E 0 1 3, S 10, E 0 1 4, S 3, D 1 1, S 14, E 2 1 5, S 24, S 9",
    "queues-side-by-side": "E 0 1 3, S 4, E 1 2 4, S 5, E 2 1 5, S 14, D 2 2, S 2, D 2 1, S 15",
}  # fmt: skip

SIZES = ["1 1 1", "16 1 4", "0 1 4", "17 1 4", "65535 1 4", "2 8 9", "2 0 4", "2 9 20", "2 65535 65535", "2 1 1", "2 1 0",
         "2 8 8", "2 8 7", "2 1 1024", "2 1 1025", "2 1 65535", "16 8 1024", "17 9 1025", "0 0 0"]  # fmt: skip

# ---------------------------------------------------------------------------------------------------
# By hand: texts, most of them wrong. A name is the place and a number; the text says the rest.

def wrong_numbers(good):
    """What may stand where a number is due, and is none."""
    n = str(good).encode()
    yield from (b"", b" ", b"0" + n, b"00", b"-" + n, b"+" + n, n + b" ", b" " + n, n + b"\t", n + b"\r", n + b"\0", n + b" " + n)
    yield from (b"x", n + b"x", b"0x" + n, n + b".0", b"\xd9\xa2", b"/", b":", b"65536", b"99999")
    yield from (str(good + 2**bits).encode() for bits in (16, 32, 64))


LINES = [b"", b" ", b"E", b"E ", b"E 0", b"E 0 1", b"E 0 1 ", b"E 0 1 2 3", b" E 0 1 2", b"E  0 1 2", b"E\t0 1 2", b"E0 1 2", b"E 0,1,2",
         b"e 0 1 2", b"F 0 1 2", b"EE 0 1 2", b"E 0 1 2;", b"E 0 1 2 # three", b"# E 0 1 2", b"E 0 1 2 S 1", b"D", b"D ", b"D 0",
         b"D 0 ", b"D 0 1 2", b"D  0 1", b"D\t0 1", b"d 0 1", b"S", b"S ", b"S 0", b"S 1 1", b"S  1", b" S 1", b"S\t1", b"s 1", b"S1",
         b"S\x001", b"\xff", b"3", b"Q 1", b"T 1", b"R 1 9", b"U 1"]  # fmt: skip

FIELDS = [("E ", 0, " 1 2"), ("E 0 ", 1, " 2"), ("E 0 1 ", 2, ""), ("D ", 0, " 1"), ("D 0 ", 1, ""), ("S ", 1, "")]

GOOD = schedule("2 1 4", "E 0 1 2, S 10")

TEXTS = {
    "text-empty": b"",
    "text-one-lf": b"\n",
    "text-ends-after-line-1": b"3\n",
    "text-ends-after-line-4": b"3\n2\n1\n4\n",
    "text-ends-after-line-5": b"3\n2\n1\n4\n2\n",
    "text-ends-after-line-6": b"3\n2\n1\n4\n2\nE 0 1 2\n",
    "text-no-final-lf": GOOD[:-1],
    "text-no-final-lf-of-the-count": b"3\n2\n1\n4\n0",
    "text-no-final-lf-of-line-1": b"3",
    "text-cut-inside-a-line": GOOD[:-3],
    "text-extra-line": GOOD + b"S 1\n",
    "text-extra-empty-line": GOOD + b"\n",
    "text-extra-byte": GOOD + b" ",
    "text-extra-nul": GOOD + b"\0",
    "text-extra-wrong-line": GOOD + b"x\n",
    "text-extra-after-no-events": b"3\n2\n1\n4\n0\n\n",
    "text-empty-line-first": b"\n" + GOOD,
    "text-empty-line-between": GOOD.replace(b"S", b"\nS"),
    "text-count-one-less": GOOD.replace(b"\n2\nE", b"\n1\nE"),
    "text-count-one-more": GOOD.replace(b"\n2\nE", b"\n3\nE"),
    "text-count-0": GOOD.replace(b"\n2\nE", b"\n0\nE"),
    "text-count-65535": GOOD.replace(b"\n2\nE", b"\n65535\nE"),
    "text-first-of-two-wrong-lines": b"3\n2\n1\n4\n2\nE 0 1\nS 0\n",
    "text-wrong-before-missing": b"3\n2\n1\n4\n9\nE 0 1 2\nS 0\n",
    "text-wrong-before-no-final-lf": b"3\n2\n01\n4\n0",
    "text-wrong-beats-sizes": b"3\n0\n0\n0\n1\nS 0\n",
    "text-sizes-beat-events": b"3\n0\n1\n4\n1\nE 9 9 9\n",
    "text-sizes-section-of-2": b"2\n2\n1\n2\nE 0 1 2\nS 10\n",
    "text-sizes-on-one-line": b"3 2 1 4\n2\nE 0 1 2\nS 10\n",
    "text-crlf": GOOD.replace(b"\n", b"\r\n"),
    "text-crlf-from-line-6": GOOD[:10] + GOOD[10:].replace(b"\n", b"\r\n"),
    "text-cr": GOOD.replace(b"\n", b"\r"),
    "text-byte-order-mark": b"\xef\xbb\xbf" + GOOD,
    "text-utf-16": GOOD.decode().encode("utf-16-le"),
    "text-all-bytes": bytes(range(256)),
    "text-nuls": bytes(100),
    "text-a-program": b"\x7fELF\x02\x01\x01" + bytes(9) + b"\x03\0\x3e\0\x01\n\0\0",
    "text-good-then-binary": GOOD[:18] + bytes(range(128, 256)) + b"\n",
    "number-65535-level": schedule("2 1 4", "E 65535 1 2"),
    "number-65535-queue": schedule("2 1 4", "E 0 65535 2"),
    "number-65535-node": schedule("2 1 4", "E 0 1 65535"),
    "number-65535-steps": schedule("2 1 4", "E 0 1 2, S 65535"),
    "number-10000-node": schedule("2 1 4", "E 0 1 10000"),
}


def texts():
    yield from TEXTS.items()
    for at in range(5):
        before, good, after = GOOD.split(b"\n")[:at], GOOD.split(b"\n")[at], GOOD.split(b"\n")[at + 1 :]
        for i, wrong in enumerate(wrong_numbers(int(good))):
            yield f"line-{at + 1}-wrong-{i}", b"\n".join([*before, wrong, *after])
    for at, (before, good, after) in enumerate(FIELDS):
        for i, wrong in enumerate(wrong_numbers(good)):
            yield f"field-{at}-wrong-{i}", b"3\n2\n1\n4\n1\n" + before.encode() + wrong + after.encode() + b"\n"
    for i, wrong in enumerate(LINES):
        yield f"line-6-wrong-{i}", b"3\n2\n1\n4\n1\n" + wrong + b"\n"
    for i, wrong in enumerate(LINES[::9]):
        yield f"line-8-wrong-{i}", b"3\n2\n1\n4\n4\nE 0 1 2\nS 3\n" + wrong + b"\nS 7\n"


# ---------------------------------------------------------------------------------------------------
# By chance: a schedule is made while the second program performs it, so that begins fit.


class Chance:
    def __init__(self, seed):
        self.random = random.Random(seed).random

    def below(self, n):
        return int(self.random() * n)

    def among(self, *values):
        return values[self.below(len(values))]

    def often(self, part):
        return self.random() < part


class Maker:
    def __init__(self, seed, L, Q, N):
        self.chance = Chance(seed)
        self.L, self.Q, self.N = L, Q, N
        self.bench = Bench(L, Q, N)
        self.events = []

    def top(self):
        running = self.bench.running
        return running[-1].level if running else -1

    def free(self):
        return [n for n in range(self.Q + 1, self.N + 1) if self.bench.memory.use[n] == 0]

    def event(self, letter, *numbers):
        """Performs an event if it is accepted."""
        if self.bench.perform(letter, *numbers) == 0:
            self.events.append(" ".join(map(str, (letter, *numbers))))

    def steps(self, count):
        taken = 0
        while taken < count and self.bench.running:
            self.bench.step()
            taken += 1
        if taken:
            self.events.append(f"S {taken}")

    def to_end(self, running):
        """Steps until no more than so many operations run."""
        taken = 0
        while len(self.bench.running) > max(0, running):
            self.bench.step()
            taken += 1
        if taken:
            self.events.append(f"S {taken}")

    def text(self):
        return schedule(f"{self.L} {self.Q} {self.N}", ", ".join(self.events))


def storm(seed):
    """Begins and steps as they come, at all levels and in all queues."""
    chance = Chance(seed)
    L = chance.among(2, 2, 3, 3, 4, 5, 6, 8, 12, 16)
    Q = chance.among(1, 1, 1, 2, 2, 3, 5, 8)
    make = Maker(seed + 0.5, L, Q, Q + chance.among(1, 2, 3, 4, 6, 9, 14, 20, 40))
    begins, dequeues, jumps, favourite = (chance.random() for _ in range(4))
    stride = chance.among(2, 4, 8, 8, 14, 30)
    for _ in range(10 + chance.below(160)):
        if chance.often(0.2 + begins / 2):
            top = make.top() + 1
            level = top + (chance.below(max(1, L - top)) if chance.often(jumps / 3) else 0)
            queue = 1 if chance.often(favourite) else 1 + chance.below(Q)
            free = make.free()
            if chance.often(dequeues / 1.5) or not free:
                make.event("D", level, queue)
            else:
                make.event("E", level, queue, chance.among(*free))
        elif chance.often(0.15):
            make.to_end(len(make.bench.running) - 1 - chance.below(2))
        else:
            make.steps(1 + chance.below(stride))
    if chance.often(0.15):
        refused(make, chance)
    elif chance.often(0.85):
        make.to_end(0)
    return make.text()


def refused(make, chance):
    """An event that is likely to be refused, and one that comes too late."""
    L, Q, N = make.L, make.Q, make.N
    make.events.append(chance.among(
        f"E {chance.below(L + 1)} {chance.below(Q + 2)} {chance.below(N + 2)}", f"D {chance.below(L + 1)} {chance.below(Q + 2)}",
        "S 65535", f"E {L} 0 0", f"D {max(0, make.top())} 1"))  # fmt: skip
    make.events.append("S 1")


def ladder(seed):
    """Each level begins over the one below, stopped early; on the way down others come in again."""
    chance = Chance(seed)
    L = chance.among(4, 6, 9, 12, 16, 16, 16)
    Q = chance.among(1, 1, 1, 2, 3)
    make = Maker(seed + 0.5, L, Q, Q + L + chance.below(30))
    make.event("E", 0, 1, Q + 1)
    make.to_end(0)
    stop = chance.among(3, 6, 10, 12, 20)
    for turn in range(1 + chance.below(3)):
        for level in range(make.top() + 1, L):
            if chance.often(0.12):
                make.event("D", level, 1 + chance.below(Q))
            elif make.free():
                make.event("E", level, 1 if chance.often(0.8) else Q, chance.among(*make.free()))
            make.steps(1 + chance.below(stop))
        make.to_end(chance.below(max(1, len(make.bench.running))))
    make.to_end(0)
    for _ in range(chance.below(6)):
        make.event("D", 0, 1)
        make.to_end(0)
    return make.text()


def chain(seed, nodes=0):
    """A long chain behind a level that is stopped before its link, or between a mark and its anchor."""
    chance = Chance(seed)
    make = Maker(seed + 0.5, chance.among(3, 4), 1, nodes or chance.among(20, 40, 60, 100, 180))
    make.event("E", 0, 1, 2)
    make.steps(chance.among(2, 3, 4, 5, 6, 7, 8))
    make.event("E", 1, 1, 3)
    make.steps(5 + chance.below(10))
    while len(make.free()) > 1 + chance.below(9):
        make.event("E", 2, 1, make.free()[0])
        make.to_end(len(make.bench.running) - chance.among(*[1] * 30, 2))
        if make.top() < 1 and make.free():
            make.event("E", 1, 1, make.free()[0])
            make.steps(5 + chance.below(10))
        if chance.often(0.1):
            make.event("D", 2, 1)
            make.to_end(len(make.bench.running) - 1)
    make.to_end(0)
    for _ in range(chance.below(20)):
        make.event("D", 0, 1)
        make.to_end(0)
    return make.text()


def reader(seed):
    """A dequeue at level 0 again and again, interrupted by enqueues that are interrupted in turn."""
    chance = Chance(seed)
    L = chance.among(2, 3, 4, 7)
    make = Maker(seed + 0.5, L, 1, 2 + chance.among(2, 3, 5, 8))
    for _ in range(6 + chance.below(20)):
        if not make.bench.running:
            make.event("D", 0, 1) if chance.often(0.7) else make.event("E", 0, 1, chance.among(*make.free() or [1]))
        make.steps(1 + chance.below(12))
        for level in range(1, L):
            if make.free() and chance.often(0.6):
                make.event("E", level, 1, chance.among(*make.free()))
                make.steps(1 + chance.below(18))
        make.to_end(chance.among(0, 1, 1, 2))
    if chance.often(0.8):
        make.to_end(0)
    return make.text()


def damaged(seed):
    """A good schedule with one wrong place, or none."""
    chance = Chance(seed)
    text = chance.among(storm, reader)(seed + 0.25)[:4000]
    at = chance.below(len(text))
    lines = text.split(b"\n")
    line = chance.below(len(lines))
    odd = chance.among(b"0", b"7", b" ", b"\n", b"\r", b"\t", b"E", b"S", b"x", b"-", b"\0", b"\x80", b"65536")
    return chance.among(
        text[:at], text[:at] + odd + text[at:], text[:at] + odd + text[at + 1 :], text[:at] + text[at + 1 :], text + odd,
        b"\n".join(lines[:line] + lines[line + 1 :]), b"\n".join(lines[:line] + lines[line : line + 1] + lines[line:]),
        b"\n".join(lines[:line] + [lines[line] + b" "] + lines[line + 1 :]))  # fmt: skip


KINDS = {storm: 300, ladder: 100, chain: 30, reader: 120, damaged: 200}

# ---------------------------------------------------------------------------------------------------
# The largest texts.


def largest():
    """A schedule of 65,536 bytes, all of it performed. The steps of its last enqueue are cut up so that it fits."""
    make = Maker(1, 16, 8, 1024)
    last = [1000, 9, 10, 100]  # nodes kept for that enqueue, by the length of their numbers modulo 4
    free = [n for n in make.free() if n not in last]
    chance, size = make.chance, len("3\n16\n8\n1024\n99999\n")
    while LIMIT - size > 51:
        before = len(make.events)
        if LIMIT - size < 1000:
            make.to_end(0)
            make.event("D", 0, 1 + chance.below(8))
            make.to_end(0)
        elif make.top() < 15 and free and chance.often(0.7):
            make.event("E", make.top() + 1, 1 + chance.below(8), free.pop(chance.below(len(free))))
            make.steps(1 + chance.below(25))
        else:
            make.event("D", make.top() + 1, 1 + chance.below(8))
            make.steps(chance.among(2, 6, 22, 40))
            free = free or [n for n in make.free() if n not in last]
        size += sum(len(each) + 1 for each in make.events[before:])
    make.event("E", 0, 1, last[(LIMIT - size - len("E 0 1 \n")) % 4])
    parts = (LIMIT - size - len(make.events[-1] + "\n")) // len("S 1\n")
    for _ in range(parts - 1):
        make.steps(1)
    make.to_end(0)
    assert len(make.text()) == LIMIT
    return make.text()


def big():
    whole = largest()
    yield "big-65536", whole
    yield "big-65537", whole[:-1] + b"0\n"
    yield "big-65536-no-final-lf", whole[:-1] + b"0"
    yield "big-65536-one-line", b"3" * LIMIT
    yield "big-65537-one-line", b"3" * (LIMIT + 1)
    yield "big-16380-events-the-last-wrong", b"3\n1\n1\n2\n16380\n" + b"S 1\n" * 16379 + b"S 0\n"


# ---------------------------------------------------------------------------------------------------


def cases():
    for name, events, _ in RUNS:
        yield "worked-" + name, schedule("2 1 4", events)
    folder = HERE + "/../examples/"
    for each in sorted(os.listdir(folder)):
        if each.endswith(".schedule"):
            with open(folder + each, "rb") as text:
                yield "example-" + each[:-9], text.read()
    for name, events in EVENTS.items():
        yield name, schedule("3 2 6", events)
    for sizes in SIZES:
        yield "sizes-" + sizes.replace(" ", "-"), schedule(sizes, "")
        yield f"sizes-{sizes.replace(' ', '-')}-performed", schedule(sizes, f"E 0 1 {int(sizes.split()[1]) + 1}, S 10, D 0 1, S 22")
    for kind, count in KINDS.items():
        for seed in range(count):
            yield f"{kind.__name__}-{seed}", kind(seed)
    yield "chain-of-1024", chain(3, 1024)
    yield from texts()
    yield from big()


def main(folder):
    packed = [(name, header(name, text) + text) for name, text in cases()]
    assert len(dict(packed)) == len(packed)
    with open(folder + "/stdin", "wb") as schedules:
        schedules.writelines(each for _, each in packed)
    print(f"{len(packed)} schedules written")


if __name__ == "__main__":
    main(*sys.argv[1:]) if len(sys.argv) == 2 else sys.exit(__doc__)
