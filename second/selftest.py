#!/usr/bin/env python3
"""Holds second/bench.py to the worked runs and to what is claimed of waiting counts; examples/README.md, docs/SCHEDULE.md and
docs/BOUNDS.md to second/bench.py; and examples/tries/README.md and docs/TRIES.md to second/tries.py.

    second/selftest.py
"""

import os
import random
import re
import sys

from bench import Bench, log_of, read_schedule, waiting

HERE = os.path.dirname(os.path.abspath(__file__))

# The worked runs, for L 2, Q 1, N 4: events, and the log they give.
RUNS = [
    ("enqueue-alone-level-0", "E 0 1 2, S 10", "E 0 1 2 10, Q 1 2"),
    ("enqueue-alone-level-1", "E 1 1 2, S 11", "E 1 1 2 11, Q 1 2"),
    ("dequeue-on-fresh", "D 0 1, S 2", "D 0 1 0 2, Q 1"),
    ("dequeue-after-2-went-in", "E 0 1 2, S 10, D 0 1, S 22", "E 0 1 2 10, D 0 1 2 22, Q 1"),
    ("program-case", "E 0 1 2, S 4, E 1 1 3, S 13, E 1 1 4, S 21", "E 1 1 3 13, E 1 1 4 13, E 0 1 2 12, Q 1 2 4 3"),
    ("stopped-after-6-steps", "E 0 1 2, S 6, E 1 1 3, S 16, S 4", "E 1 1 3 16, E 0 1 2 10, Q 1 3 2"),
    ("dequeue-in-between", "E 0 1 2, S 6, E 1 1 3, S 16, D 1 1, S 28, D 1 1, S 2, S 4",
     "E 1 1 3 16, D 1 1 3 28, D 1 1 0 2, E 0 1 2 10, Q 1 2"),
    ("stopped-after-8-steps", "E 0 1 2, S 8, E 1 1 3, S 14, S 2", "E 1 1 3 14, E 0 1 2 10, Q 1 2 3"),
    ("the-21-step-empty", "E 0 1 2, S 10, E 0 1 3, S 4, D 1 1, S 21, S 7", "E 0 1 2 10, D 1 1 0 21, E 0 1 3 11, Q 1 2 3"),
    ("node-1-enqueued", "E 0 1 1", "R 1 5, Q 1"),
    ("level-0-while-level-1-runs", "E 1 1 2, E 0 1 3", "R 2 6, U 1"),
    ("node-2-twice", "E 0 1 2, E 1 1 2", "R 2 7, U 1"),
    ("dequeue-over-a-dequeue", "D 0 1, S 1, D 1 1", "R 3 8, U 1"),
    ("no-steps", "S 0", "T 6"),
    ("leading-zero", "E 01 1 2", "T 6"),
]

# One of them in the bounds log: an E line ends with the bound on its steps, a D line does not.
BOUNDED = [
    ("dequeue-in-between", "E 0 1 2, S 6, E 1 1 3, S 16, D 1 1, S 28, D 1 1, S 2, S 4",
     "E 1 1 3 16 30, D 1 1 3 28, D 1 1 0 2, E 0 1 2 10 20, Q 1 2"),
]

# Waiting counts of queue 1, for the same sizes: events, words that are then changed, the answer, and how many nodes' use is queue 1.
COUNTS = [
    ("nothing-in", "", {}, (0, 0), 0),
    ("quiet", "E 0 1 2, S 10, E 0 1 3, S 10, E 1 1 4, S 11", {}, (0, 3), 3),
    ("stuck", "E 0 1 2, S 10, E 0 1 3, S 4", {}, (0, 0), 2),
    ("no-longer-stuck", "E 0 1 2, S 10, E 0 1 3, S 4, D 1 1, S 21, S 7", {}, (0, 2), 2),
    ("dequeue-not-ended", "E 0 1 2, S 10, D 0 1, S 3", {}, (8, 0), 1),
    ("next-of-2-is-no-node", "E 0 1 2, S 10, E 0 1 3, S 10", {11: 5}, (10, 0), 2),
    ("next-of-2-is-2", "E 0 1 2, S 10", {11: 2}, (10, 0), 1),
    ("another-count-of-levels", "", {0: 3}, (1, 0), 0),
]

# The random ways on which waiting counts are tried: how many, and the events of each.
WAYS = 300, 25


def schedule(sizes, events):
    """The text of a schedule: sizes 'L Q N', and the events with commas between them."""
    lines = events.split(", ") if events else []
    return "".join(line + "\n" for line in ["3", *sizes.split(" "), str(len(lines)), *lines]).encode()


def examples():
    """The name and the log of each example, as examples/README.md shows them."""
    with open(HERE + "/../examples/README.md") as page:
        return re.findall(r"^## ([a-z0-9-]+)\n.*?^```\n(.*?)^```$", page.read(), re.M | re.S)


def texts():
    """The text and the log of each row of docs/SCHEDULE.md that shows them."""
    with open(HERE + "/../docs/SCHEDULE.md") as page:
        rows = re.findall(r"^\| (?:`(.*?)`|empty) \| .* \| `(.*)` \|$", page.read(), re.M)
    return [(text.replace("\\n", "\n").replace("\\r", "\r").encode(), log.replace("` `", "\n") + "\n") for text, log in rows]


def bounded():
    """The name and the bounds log of each example that docs/BOUNDS.md shows."""
    with open(HERE + "/../docs/BOUNDS.md") as page:
        return re.findall(r"^\[examples/([a-z0-9-]+)\.schedule\].*?^```\n(.*?)^```$", page.read(), re.M | re.S)


def tried():
    """The options, the name and the answer of each task that examples/tries/README.md and docs/TRIES.md show."""
    shown = []
    for page in ("examples/tries/README.md", "docs/TRIES.md"):
        with open(f"{HERE}/../{page}") as text:
            command = r"^ {4}\./bench tries (-c|-n \d+) examples/tries/([a-z-]+)\.schedule\n\n```\n(.*?)^```$"
            shown += re.findall(command, text.read(), re.M | re.S)
    return shown


def differing_tries():
    import tries  # here, since it imports this file

    stored = {each[:-9] for each in os.listdir(HERE + "/../examples/tries") if each.endswith(".schedule")}
    if stored != {name for option, name, _ in tried() if option == "-c"}:
        yield "the outcomes of each task in examples/tries are not shown"
    for option, name, shown in tried():
        with open(f"{HERE}/../examples/tries/{name}.schedule", "rb") as text:
            parts = tries.answer(text.read(), int(option[3:] or 0), option == "-c")
        got = b"".join(part for part in parts if part).decode()
        if got != shown:
            yield f"examples/tries/{name}.schedule {option}: {got!r}"


def after(sizes, events):
    """A table after these events, whether they are refused or not."""
    bench = Bench(*sizes)
    for event in events:
        bench.perform(*event)
    return bench


def random_ways(ways, length):
    """Sizes and events, made up at random and always the same."""
    chance = random.Random(201)
    for _ in range(ways):
        levels, queues = chance.choice((1, 2, 4, 6, 16)), chance.choice((1, 1, 2))
        nodes = queues + chance.randint(2, 7)
        events = {
            "E": lambda: (chance.randrange(levels), chance.randint(1, queues), chance.randint(queues + 1, nodes)),
            "D": lambda: (chance.randrange(levels), chance.randint(1, queues)),
            "S": lambda: (chance.choice((2, 4, 5, 6, 30)),),
        }
        yield (levels, queues, nodes), [(letter, *events[letter]()) for letter in chance.choices("EEEDSSS", k=length)]


def dequeues(bench, level, queue):
    """How many nodes dequeues return that are made at this level of the table itself, until one says empty."""
    count = 0
    while True:
        assert bench.begin_dequeue(level, queue) == 0
        while bench.running and bench.running[-1].level == level:
            bench.step()
        if bench.log[-1].split(" ")[3] == "0":
            return count
        count += 1


def wrong_count(sizes, events, queue):
    """Whether the waiting count after these events is not what is claimed of it: 8 over a dequeue of the queue; else a number, that of
    the listing where the queue is quiet, never more than were handed in, and what dequeues return at each level above those that run."""
    bench = after(sizes, events)
    code, count = waiting(bench.words(), queue)
    letters = [each.letter for each in bench.running if each.queue == queue]
    if "D" in letters:
        return code != 8
    idle = range(bench.running[-1].level + 1 if bench.running else 0, bench.levels)
    return (
        code != 0
        or count > bench.memory.use.count(queue)
        or not letters and count != len(bench.show(queue).split(" ")) - 2
        or any(count != dequeues(after(sizes, events), level, queue) for level in idle)
    )


def differing_counts():
    for name, events, changed, answer, handed_in in COUNTS:
        bench = after(*read_schedule(schedule("2 1 4", events)))
        words = bench.words()
        for at, word in changed.items():
            words[at] = word
        if (waiting(words, 1), bench.memory.use.count(1)) != (answer, handed_in):
            yield f"{name}: a waiting count of {waiting(words, 1)}"
    for sizes, events in random_ways(*WAYS):
        for end in range(len(events) + 1):
            for queue in range(1, sizes[1] + 1):
                if wrong_count(sizes, events[:end], queue):
                    yield f"the waiting count of queue {queue} on {sizes} after {events[:end]}"


def differing():
    for bounds, runs in ((False, RUNS), (True, BOUNDED)):
        for name, events, log in runs:
            got = log_of(schedule("2 1 4", events), bounds).decode()
            if got != log.replace(", ", "\n") + "\n":
                yield f"{name}{' with bounds' if bounds else ''}: {got!r}"
    shown = examples()
    stored = [each[:-9] for each in os.listdir(HERE + "/../examples") if each.endswith(".schedule")]
    if sorted(stored) != sorted(name for name, _ in shown):
        yield "examples/README.md does not show each example once"
    if not bounded():
        yield "docs/BOUNDS.md shows no bounds log"
    for bounds, pairs in ((False, shown), (True, bounded())):
        for name, log in pairs:
            with open(f"{HERE}/../examples/{name}.schedule", "rb") as text:
                got = log_of(text.read(), bounds).decode()
            if got != log:
                yield f"examples/{name}.schedule{' with bounds' if bounds else ''}: {got!r}"
    for text, log in texts():
        got = log_of(text).decode()
        if got != log:
            yield f"docs/SCHEDULE.md: the log of {text} is {got!r}"


if __name__ == "__main__":
    wrong = [*differing(), *differing_counts(), *differing_tries()]
    if wrong:
        sys.exit("\n".join(wrong))
    print(f"{len(RUNS) + len(BOUNDED)} worked runs, {len(examples())} examples, {len(texts())} texts and {len(tried())} tasks agree")
    print(f"{len(COUNTS)} waiting counts agree, and those of {WAYS[0]} random ways are as claimed")
