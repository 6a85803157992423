#!/usr/bin/env python3
"""How near schedules come to the bound: the most steps of its own that an operation takes, over every schedule of small sizes.

    second/worst.py                      the table of docs/BOUNDS.md, in two or three minutes
    second/worst.py L Q N                the same for these sizes
    second/worst.py L Q N E LEVEL        a schedule in which an enqueue (D: a dequeue) at this level takes the most, as text
    second/worst.py --large              the schedule for large sizes, tried at many of them: its steps beside the bound
    second/worst.py --large L N          the same for these sizes, as text: its enqueue at level L - 1

The search leaves nothing out: no schedule of these sizes brings more steps than it says. The step table is that of
second/wrong_tables.py, and each schedule that is printed is held to the log of second/bench.py.
"""

import re
import sys
import time

from bench import LIMIT, Bench, enqueue_most
from selftest import schedule
from wrong_tables import RIGHT, Frame, Table

SIZES = [(1, 1, 2), (1, 1, 3), (1, 1, 4), (1, 1, 5), (1, 1, 6), (2, 1, 3), (2, 1, 4), (2, 1, 5), (2, 1, 6), (3, 1, 4), (3, 1, 5), (3, 1, 6),
         (4, 1, 5), (3, 2, 5)]  # fmt: skip


def most(letter, level, N):
    """The bound on the own steps of an enqueue or a dequeue."""
    return enqueue_most(level, N) if letter == "E" else (level + 1) * (N + 6) + 15


class Failed(Exception):
    """What must not happen; the text says what."""


# ---------------------------------------------------------------------------------------------------
# A frame as bytes: four nodes, then the other words; the word a stands with the shared words (below). A
# word that is set anew before it is read again is GONE, so that frames which differ only there are one.
# READ says where a word is still to be read. Were a point missing, nothing would go wrong unseen: a word
# that is gone is not in the frame that the step table is given, and to read it is an error.

WORDS = ("n", "p", "c", "r", "op", "point", "q", "k", "m")
NODES = slice(0, 4)
GONE = 255
POINTS = list(RIGHT)


def points(ranges):
    """The points of 'E1..E9 E13'."""
    for each in ranges.split(" "):
        first, _, last = each.partition("..")
        yield from POINTS[POINTS.index(first) : POINTS.index(last or first) + 1]


READ = {word: frozenset(points(ranges)) for word, ranges in {
    "n": "E1..E9 E13..E18 E21..E22",
    "p": "E5 E13..E18",
    "c": "E8..E12 E16 E19..E20 E23..E27 D2..D7",
    "a": "E21..E25",
    "r": "E18..E20 E22..E24 D5",
    "k": "E3..E6",
    "m": "E13..E14 E16",
    "op": "E1..D7",
    "q": "E1..D7",
}.items()}  # fmt: skip


def pack(f):
    """The bytes of a frame."""
    return bytes(POINTS.index(f.point) if word == "point" else getattr(f, word) if f.point in READ[word] else GONE for word in WORDS)


def unpack(frame):
    f = Frame.__new__(Frame)
    for word, value in zip(WORDS, frame):
        if value != GONE:
            setattr(f, word, value)
    f.point = POINTS[f.point]
    if f.point == "E29":
        f.n = 0  # its answer reads it, and nobody asks for that here
    return f


# ---------------------------------------------------------------------------------------------------
# The shared words as bytes. First those that name a node: heads, tails, the levels' nodes, the anchors (the
# word a of each level's frame) and the nexts. Then the uses, the levels' queues, and for each queue whether
# a dequeue runs. All that an operation sees is in these and in its own frame.
#
# Users' nodes may be renamed, in the shared words and in all frames at once: no step and no begin looks at
# a node's number, but for the sentinels'.

SAME = bytes(range(256))  # the renaming that changes nothing


class Words:
    def __init__(self, L, Q, N):
        self.L, self.Q, self.N = L, Q, N
        self.table = Table(L, Q, N)
        at = 0
        for part, size in (("head", Q), ("tail", Q), ("LN", L), ("anchor", L), ("next", N), ("use", N), ("LQ", L), ("busy", Q)):
            setattr(self, part, slice(at, at + size))
            at += size
        self.fresh = self.joined(bytes(L), bytes(Q))

    def joined(self, anchors, busy):
        t = self.table
        return bytes(t.head[1:] + t.tail[1:] + t.LN) + anchors + bytes(t.next[1:] + t.use[1:] + t.LQ) + busy

    def step(self, level, shared, frame):
        """The shared words and the frame after one step; the frame is empty where the operation ended."""
        t, f = self.table, unpack(frame)
        t.head, t.tail, t.LN = [0, *shared[self.head]], [0, *shared[self.tail]], list(shared[self.LN])
        t.next, t.use, t.LQ = [0, *shared[self.next]], [0, *shared[self.use]], list(shared[self.LQ])
        anchors, busy = bytearray(shared[self.anchor]), bytearray(shared[self.busy])
        if f.point in READ["a"]:
            f.a = anchors[level]
        to = RIGHT[f.point](t, level, f)
        going_on = isinstance(to, str)
        if going_on:
            f.point = to
        elif f.op == 2:
            busy[f.q - 1] = 0
        anchors[level] = f.a if to in READ["a"] else 0
        return self.joined(anchors, busy), pack(f) if going_on else b""

    def begins(self, shared):
        """The begins that are accepted, as (letter, queue, where).

        For an enqueue, where is the place of a word that names the node, or -1 for the lowest free node that no word names: those
        are alike, since to rename them changes nothing.
        """
        uses, named, free = shared[self.use], [], []
        for n in range(self.Q + 1, self.N + 1):
            if uses[n - 1] == 0:
                where = shared.find(n, 0, self.use.start)
                (free if where < 0 else named).append(where)
                if where >= self.next.start or shared[self.next][n - 1]:
                    raise Failed("a free node is in a chain")
        for q in range(1, self.Q + 1):
            yield from (("E", q, where) for where in named + free[:1])
            if not shared[self.busy][q - 1]:
                yield "D", q, None

    def begun(self, shared, letter, q, where):
        """The shared words, the frame and the node after a begin."""
        if letter == "D":
            return self.put(shared, self.busy.start + q - 1, 1), pack(Frame(2, "D1", q, 0, None)), 0
        unnamed = (n for n in range(self.Q + 1, self.N + 1) if not shared[self.use][n - 1] and n not in shared[: self.use.start])
        n = shared[where] if where >= 0 else next(unnamed)
        return self.put(shared, self.use.start + n - 1, q), pack(Frame(1, "E1", q, n, None)), n

    def put(self, shared, at, value):
        return shared[:at] + bytes([value]) + shared[at + 1 :]

    def naming(self, shared, frame, kept):
        """A renaming of the nodes that are not kept: by the order in which they are met, then those in use, then the free."""
        nexts, uses, met = shared[self.next], shared[self.use], {}
        for node in shared[: self.next.start] + frame[NODES]:
            while node not in met and node not in (0, GONE):
                met[node] = True
                node = nexts[node - 1]
        rest = [n for n in range(1, self.N + 1) if n not in met]
        order = [n for n in (*met, *sorted(rest, key=lambda n: uses[n - 1] == 0)) if n > self.Q and n not in kept]
        ordered = sorted(order)
        if order == ordered:
            return SAME
        names = bytearray(SAME)
        for new, old in zip(ordered, order):
            names[old] = new
        return bytes(names)

    def renamed(self, shared, names):
        if names is SAME:
            return shared
        nexts, uses = bytearray(self.N), bytearray(self.N)
        for at, (following, use) in enumerate(zip(shared[self.next].translate(names), shared[self.use]), 1):
            nexts[names[at] - 1], uses[names[at] - 1] = following, use
        return shared[: self.next.start].translate(names) + nexts + uses + shared[self.LQ.start :]

    def tidy(self, shared, frame, kept):
        names = self.naming(shared, frame, kept)
        if names is SAME:
            return shared, frame, kept
        return self.renamed(shared, names), frame[NODES].translate(names) + frame[NODES.stop :], kept


# ---------------------------------------------------------------------------------------------------
# The search goes level by level. While an operation runs, the frames below stand still, and it does not
# see them. So what a whole operation above can make of the shared words is found once for each content of
# these words, under one naming of the nodes, and serves, named back, wherever a lower level is interrupted.
#
# Frames below hold nodes, so within a run a node in use at its begin keeps its name (`kept`) until it comes
# free. Any other is renamed as it comes. This loses nothing if no frame that waits still has to read a word
# that names a node which came free meanwhile. `waits` sees to this each time. It is not so for the anchor
# (E25 compares it with tail), and so the anchors stand with the shared words and are renamed with them.


class Run:
    """One operation from its begin on, whatever interrupts it. A place is (shared words, frame, kept nodes)."""

    def __init__(self, level, begin, origin):
        self.level, self.begin = level, begin
        self.origin = origin  # (run, place) of the level below at which it began, or the shared words where nothing runs
        self.came = {}  # each place: the place before, and (run, its end) or None for a step
        self.ends = {}  # (shared words, kept nodes) after the end: the place before the last step
        self.steps, self.last = 0, None  # the most steps it takes, and a place before the last of these


class Search:
    def __init__(self, L, Q, N, tell):
        self.words, self.tell = Words(L, Q, N), tell
        self.L, self.Q, self.N = L, Q, N
        self.runs, self.above_of, self.places = {}, {}, 0
        self.quiet = {self.words.fresh: None}  # the shared words where nothing runs: those before, and (run, its end)
        todo = list(self.quiet)
        for shared in todo:
            for (after, _), end in self.above(-1, shared, shared).items():
                after = self.words.tidy(after, b"", b"")[0]
                if after not in self.quiet:
                    self.quiet[after] = (shared, end)
                    todo.append(after)

    def above(self, level, shared, origin):
        """What one whole operation above the level makes of the shared words: {(words, nodes in use all the while): (run, its end)}."""
        found = self.above_of.get((level, shared))
        if found is None:
            found = self.above_of[level, shared] = {}
            names = self.words.naming(shared, b"", b"")
            back, entry = SAME if names is SAME else bytes(map(names.index, SAME)), self.words.renamed(shared, names)
            for higher in range(level + 1, self.L):
                for begin in self.words.begins(entry):
                    run = self.run(higher, entry, begin, origin)
                    for end in run.ends:
                        found.setdefault((self.words.renamed(end[0], back), end[1].translate(back)), (run, end))
        return found

    def run(self, level, entry, begin, origin):
        run = self.runs.get((level, entry, begin))
        if run is None:
            run = self.runs[level, entry, begin] = Run(level, begin, origin)
            shared, frame, _ = self.words.begun(entry, *begin)
            self.explore(run, self.words.tidy(shared, frame, self.in_use(entry, range(self.Q + 1, self.N + 1))))
            self.places += len(run.came)
            self.tell(self)
        return run

    def in_use(self, shared, nodes):
        return bytes(n for n in nodes if shared[self.words.use][n - 1])

    def explore(self, run, start):
        """Finds all places of a run: those after no step of its own, then those after one, and so on.

        A place comes again where more steps lead to it, and then `came` has the longer way; in the end it has the longest. That
        this ends is the bound's doing, so the bound is tested.
        """
        ways, layer = {}, {start: None}
        while layer:
            todo = list(layer)
            for place in todo:
                if place not in ways:
                    ways[place] = self.stepped(run.level, *place), self.interrupted(run, place)
                for after, end in ways[place][1].items():
                    if after not in layer:
                        layer[after] = place, end
                        todo.append(after)
            run.came.update(layer)
            run.steps += 1
            if run.steps > most(run.begin[0], run.level, self.N):
                raise Failed(f"the bound is broken: an operation {run.begin[0]} at level {run.level} takes more steps")
            layer = self.after_step(run, ways, layer)

    def after_step(self, run, ways, layer):
        after, run.last = {}, None
        for place in layer:
            shared, frame, kept = ways[place][0]
            if frame:
                after.setdefault((shared, frame, kept), (place, None))
            else:
                run.ends.setdefault((shared, kept), place)
                run.last = run.last or place
        return after

    def stepped(self, level, shared, frame, kept):
        after, frame = self.words.step(level, shared, frame)
        return self.words.tidy(after, frame, self.in_use(after, kept))

    def interrupted(self, run, place):
        """The places after one whole operation above, each with that operation."""
        shared, frame, kept = place
        found = {}
        for (words, still), end in self.above(run.level, shared, (run, place)).items():
            self.waits(frame, still)
            after = self.words.tidy(words, frame, bytes(n for n in kept if n in still))
            if after != place:
                found.setdefault(after, end)
        return found

    def waits(self, frame, still):
        if any(self.Q < node < GONE and node not in still for node in frame[NODES]):
            raise Failed(f"a frame that waits at {POINTS[frame[WORDS.index('point')]]} names a node that came free")

    # -- what was found

    def worst(self, letter, level):
        """The run with the most steps, and of these the one found first; None if there is none."""
        runs = (run for run in self.runs.values() if run.level == level and run.begin[0] == letter)
        return max(runs, key=lambda run: run.steps, default=None)

    def way_to(self, run, place):
        """The moves from a run's begin to a place of it: None for a step, or (level, begin)."""
        parts = []
        while run.came[place]:
            place, end = run.came[place]
            parts.append(self.whole(*end) if end else [None])
        return [(run.level, run.begin)] + [move for part in reversed(parts) for move in part]

    def whole(self, run, end):
        return self.way_to(run, run.ends[end]) + [None]

    def before(self, run):
        """The moves from fresh to a run's begin."""
        if isinstance(run.origin, tuple):
            return self.before(run.origin[0]) + self.way_to(*run.origin)
        parts, shared = [], run.origin
        while self.quiet[shared]:
            shared, end = self.quiet[shared]
            parts.append(self.whole(*end))
        return [move for part in reversed(parts) for move in part]

    def schedule(self, run):
        """The text of a schedule in which the run takes its most steps."""
        moves = self.before(run) + self.way_to(run, run.last) + [None]
        shared, frames, events = self.words.fresh, {}, []
        for move in moves:
            if move:
                level, (letter, q, where) = move
                shared, frames[level], n = self.words.begun(shared, letter, q, where)
                events.append(f"E {level} {q} {n}" if n else f"D {level} {q}")
            else:
                level = max(frames)
                shared, frames[level] = self.words.step(level, shared, frames[level])
                events.append(1)
                if not frames[level]:
                    del frames[level]
        return text(self.L, self.Q, self.N, events, (run.begin[0], run.level, run.steps))


# ---------------------------------------------------------------------------------------------------
# Schedules.


def text(L, Q, N, events, due):
    """The text of a schedule: the events, in which steps are numbers, and then the steps that are left.

    By second/bench.py the operation that is due, as (letter, level, steps), is the last to end in the events.
    """
    bench, lines, left = Bench(L, Q, N), joined(events), 0
    for line in lines:
        letter, *numbers = line.split(" ")
        if bench.perform(letter, *map(int, numbers)):
            raise Failed(f"second/bench.py refuses {line} of a schedule that was found")
    letter, level, _, _, steps = bench.log[-1].split(" ")
    if (letter, int(level), int(steps)) != due:
        raise Failed(f"second/bench.py has {bench.log[-1]} where {due} was found")
    while bench.running:
        bench.step()
        left += 1
    return schedule(f"{L} {Q} {N}", ", ".join(lines + joined([1] * left)))


def joined(events):
    """The lines of the events. Steps with no begin between them are one line, as far as a number goes."""
    found = []
    for each in events:
        if found and isinstance(each, int) and isinstance(found[-1], int) and found[-1] + each <= 65535:
            found[-1] += each
        else:
            found.append(each)
    return [f"S {each}" if isinstance(each, int) else each for each in found]


# ---------------------------------------------------------------------------------------------------
# Large sizes: what the search finds at level 3, written down for any level from there on.


def formula(level, N):
    """The steps of the schedule below. The search finds no worse one."""
    return level * N - level * (level - 3) // 2 + 9


def large(L, N):
    """The text of a schedule in which an enqueue at level L - 1 takes as many steps as the formula says; L is 4 or more, N L or more."""
    level, hung, nodes = L - 1, N - L, iter(range(2, N + 1))
    events = [f"E 0 1 {next(nodes)}", 4]  # level 0 stops before its link, E9
    for _ in range(hung):
        events += [f"E 1 1 {next(nodes)}", 13]  # a node more is hung behind its node
    events += [1]  # E9: now the whole chain stands behind the sentinel, which is head and tail
    # Each level up to level - 2 puts its node between the sentinel and the chain and stops at E25. Looking for the place, it walks
    # in vain along the chain of each level but the one below it: level j's has j + 1 + hung nodes.
    for each in range(1, level - 1):
        events += [f"E {each} 1 {next(nodes)}", 11 + sum(2 + j + 1 + hung for j in range(each - 1))]
    events += [3]  # the last of them also moves tail to its node (E25, E26, E27) and stops at E28
    events += [f"D {level - 1} 1", 8]  # the sentinel is taken from the front and handed in again; this stops before its link
    # Now the sentinel is looked for along the chain of each level and of tail. It is in none.
    events += [f"E {level} 1 {next(nodes)}", formula(level, N)]
    return text(L, 1, N, events, ("E", level, formula(level, N)))


def try_large():
    print("| L | N | level | steps | bound | steps / bound |\n|---|---|---|---|---|---|")
    for L in range(4, 17):
        for N in sorted({L, L + 1, 2 * L, 64, 100, 255, 1000, 1024}):
            if len(large(L, N)) > LIMIT:
                raise Failed(f"the schedule for L {L}, N {N} is longer than a text may be")
            steps, bound = formula(L - 1, N), most("E", L - 1, N)
            print(f"| {L} | {N:,} | {L - 1} | {steps:,} | {bound:,} | {100 * steps / bound:.0f} % |", flush=True)


# ---------------------------------------------------------------------------------------------------
# The command line.


class Teller:
    """Says on standard error how far a search is, every few seconds."""

    def __init__(self):
        self.last = time.monotonic()

    def __call__(self, search):
        if time.monotonic() - self.last > 5:
            self.last = time.monotonic()
            sizes = f"L {search.L}, Q {search.Q}, N {search.N}"
            print(f"worst: {sizes}: {len(search.runs):,} operations, {search.places:,} places so far", file=sys.stderr)


def print_table(sizes):
    print("| L | Q | N | level | enqueue: most found | bound | dequeue: most found | bound |\n|---|---|---|---|---|---|---|---|")
    for L, Q, N in sizes:
        search = Search(L, Q, N, Teller())
        for level in range(L):
            cells = [L, Q, N, level]
            for letter in "ED":
                run = search.worst(letter, level)
                cells += [run.steps if run else "none", most(letter, level, N)]
            print("| " + " | ".join(map(str, cells)) + " |", flush=True)


def print_schedule(L, Q, N, letter, level):
    search = Search(L, Q, N, Teller())
    run = search.worst(letter, level)
    if run is None:
        raise Failed("there is no such operation: no node can be handed in")
    sys.stdout.buffer.write(search.schedule(run))


def numbers(words):
    if not all(re.fullmatch("[0-9]{1,5}", each) for each in words):
        raise Failed("sizes and levels are numbers")
    return [int(each) for each in words]


def main(words):
    if words in (["--help"], ["-h"]):
        print(__doc__.strip())
    elif words == ["--large"]:
        try_large()
    elif words[:1] == ["--large"] and len(words) == 3:
        L, N = numbers(words[1:])
        if not (4 <= L <= 16 and L <= N <= 1024):
            raise Failed("for a large schedule L is 4 to 16 and N L to 1,024")
        sys.stdout.buffer.write(large(L, N))
    elif not words:
        print_table(SIZES)
    elif len(words) == 3 or len(words) == 5 and words[3] in ("E", "D"):
        L, Q, N = numbers(words[:3])
        if not (1 <= L <= 16 and 1 <= Q <= 8 and Q <= N <= 200):
            raise Failed("for a search L is 1 to 16, Q 1 to 8 and N Q to 200")
        if words[4:] and not numbers(words[4:])[0] < L:
            raise Failed("there is no such level: levels are 0 to L-1")
        print_schedule(L, Q, N, words[3], int(words[4])) if words[3:] else print_table([(L, Q, N)])
    else:
        raise Failed("bad usage; second/worst.py --help says what there is")


if __name__ == "__main__":
    try:
        main(sys.argv[1:])
    except Failed as failed:
        sys.exit(f"worst: {failed}")
    except KeyboardInterrupt:
        sys.exit("worst: stopped")
