#!/usr/bin/env python3
"""The step table as a small program, and what becomes of demand 3 when some of its lines are wrong.

    second/wrong_tables.py                         the right table, then each wrong one: the shortest schedule that breaks it
    second/wrong_tables.py LABEL [L Q N BEGINS]    one of them, in all histories of these sizes with so many begins
    second/wrong_tables.py --cross [COUNT]         hold second/bench.py to this table on COUNT random schedules

The table stands here line by line and owes nothing to second/bench.py, which follows the paper.
"""

import heapq
import itertools
import random
import sys

# ---------------------------------------------------------------------------------------------------
# The step table. A line is a function of the table t, the serving level l and its frame f; it answers
# the next point, or the node that the operation ends with (0 for empty).


class Refused(Exception):
    """Refusal 10: a word used as index is not a node."""


class Frame:
    __slots__ = ("op", "point", "q", "n", "k", "p", "c", "a", "r", "m", "due", "steps")

    def __init__(self, op, point, q, n, due):
        self.op, self.point, self.q, self.n, self.due = op, point, q, n, due
        self.k = self.p = self.c = self.a = self.r = self.m = self.steps = 0

    def copy(self):
        f = Frame(self.op, self.point, self.q, self.n, self.due)
        f.k, f.p, f.c, f.a, f.r, f.m, f.steps = self.k, self.p, self.c, self.a, self.r, self.m, self.steps
        return f

    def key(self):
        return (self.op, self.point, self.q, self.n, self.k, self.p, self.c, self.a, self.r, self.m, self.due)


class Table:
    def __init__(self, L, Q, N):
        self.L, self.Q, self.N = L, Q, N
        self.LN, self.LQ = [0] * L, [0] * L
        self.head, self.tail = list(range(Q + 1)), list(range(Q + 1))
        self.next, self.use = [0] * (N + 1), [0] * (N + 1)
        self.frames = [None] * L

    def load(self, node):
        if node == 0:
            raise Refused
        return self.next[node]

    def store(self, node, value):
        if node == 0:
            raise Refused
        self.next[node] = value


def below(f, word, none, more):
    level = getattr(f, word)
    if level == 0:
        return none
    setattr(f, word, level - 1)
    return more


def walk(t, f, then):
    x = t.load(f.c)
    if x == 0:
        return then
    f.c = x
    return f.point


def E1(t, l, f):
    t.LN[l] = f.n
    return "E2"


def E2(t, l, f):
    t.LQ[l] = f.q
    f.k = l
    return below(f, "k", "E7", "E3")


def E3(t, l, f):
    return "E4" if t.LQ[f.k] == f.q else below(f, "k", "E7", "E3")


def E4(t, l, f):
    f.p = t.LN[f.k]
    return "E5"


def E5(t, l, f):
    if t.tail[f.q] == f.p:
        return "E6"
    f.m = f.k
    return below(f, "m", "E15", "E13")


def E6(t, l, f):
    t.LQ[f.k] = 0
    return below(f, "k", "E7", "E3")


def E7(t, l, f):
    f.c = t.tail[f.q]
    return "E8"


def E8(t, l, f):
    return walk(t, f, "E9")


def E9(t, l, f):
    t.store(f.c, f.n)
    f.c = f.n
    return "E10"


def E10(t, l, f):
    return walk(t, f, "E11")


def E11(t, l, f):
    t.LN[l] = f.c
    return "E12"


def E12(t, l, f):
    t.tail[f.q] = f.c
    return "E28"


def E13(t, l, f):
    return "E14" if t.LQ[f.m] == f.q else below(f, "m", "E15", "E13")


def E14(t, l, f):
    f.c = t.LN[f.m]
    return below(f, "m", "E15", "E13") if f.c == 0 else "E16"


def E15(t, l, f):
    f.c = t.tail[f.q]
    f.m = t.L
    return "E16"


def E16(t, l, f):
    x = t.load(f.c)
    if x == f.p:
        f.a = f.c
        return "E21"
    if x != 0:
        f.c = x
        return "E16"
    return "E17" if f.m == t.L else below(f, "m", "E15", "E13")


def E17(t, l, f):
    f.r = t.load(f.p)
    return "E18"


def E18(t, l, f):
    t.store(f.p, f.n)
    f.c = f.n
    return "E19"


def E19(t, l, f):
    return walk(t, f, "E20")


def E20(t, l, f):
    t.store(f.c, f.r)
    return "E28"


def E21(t, l, f):
    f.r = t.load(f.a)
    return "E22"


def E22(t, l, f):
    t.store(f.a, f.n)
    f.c = f.n
    return "E23"


def E23(t, l, f):
    return walk(t, f, "E24")


def E24(t, l, f):
    t.store(f.c, f.r)
    return "E25"


def E25(t, l, f):
    return "E26" if t.tail[f.q] == f.a else "E28"


def E26(t, l, f):
    t.LN[l] = f.c
    return "E27"


def E27(t, l, f):
    t.tail[f.q] = f.c
    return "E28"


def E28(t, l, f):
    t.LQ[l] = 0
    return "E29"


def E29(t, l, f):
    t.LN[l] = 0
    return f.n if f.op == 1 else "D1"


def D1(t, l, f):
    f.c = t.head[f.q]
    return "D2"


def D2(t, l, f):
    return 0 if t.tail[f.q] == f.c else "D3"


def D3(t, l, f):
    return 0 if t.load(f.c) == 0 else "D4"


def D4(t, l, f):
    f.r = t.load(f.c)
    return "D5"


def D5(t, l, f):
    t.head[f.q] = f.r
    return "D6" if f.c == f.q else "D7"


def D6(t, l, f):
    t.store(f.c, 0)
    f.n = f.q
    return "E1"


def D7(t, l, f):
    t.store(f.c, 0)
    t.use[f.c] = 0
    return f.c


RIGHT = {line.__name__: line for line in (
    E1, E2, E3, E4, E5, E6, E7, E8, E9, E10, E11, E12, E13, E14, E15, E16, E17, E18, E19, E20, E21, E22, E23,
    E24, E25, E26, E27, E28, E29, D1, D2, D3, D4, D5, D6, D7)}  # fmt: skip

# ---------------------------------------------------------------------------------------------------
# The wrong tables: the right one with the lines named replaced.


def going(line, to):
    """The line, but where it goes on it goes to another point."""
    def changed(t, l, f):
        line(t, l, f)
        return to
    return changed


def always_stalled(t, l, f):  # for E5
    return "E6" if t.tail[f.q] == f.p else "E17"


def tail_is_anchor(t, l, f):  # for E15, the search left out
    f.a = t.tail[f.q]
    return "E21"


def from_tail_only(t, l, f):  # for E5
    return "E6" if t.tail[f.q] == f.p else "E15"


def one_level_down_only(t, l, f):  # for E16
    to = E16(t, l, f)
    return "E17" if to in ("E13", "E15") else to


def never_clears(t, l, f):  # for E5
    f.m = f.k
    return below(f, "m", "E15", "E13")


def steps_over(t, l, f):  # for E5: E6's store left out
    return below(f, "k", "E7", "E3") if t.tail[f.q] == f.p else E5(t, l, f)


def clears_both(t, l, f):  # for E6
    t.LN[f.k] = 0
    return E6(t, l, f)


def walks_on(t, l, f):  # for E25: c goes on to the end of the chain before tail is looked at
    return walk(t, f, None) or E25(t, l, f)


def keeps_next(t, l, f):  # for D7
    t.use[f.c] = 0
    return f.c


def hands_in_as_it_is(t, l, f):  # for D6
    f.n = f.q
    return "E1"


def last_store(t, l, f):  # E28's store as the last one
    t.LQ[l] = 0
    return f.n if f.op == 1 else "D1"


def tests_then_loads(point, then):
    """A walk that loads next[c] to test it and, as a step of its own, once more to go there: the paper's two reads."""
    def test(t, l, f):
        return then if t.load(f.c) == 0 else point + "-again"

    def again(t, l, f):
        f.c = t.load(f.c)
        return point
    return {point: test, point + "-again": again}


def compares(t, l, f):  # for E16, whose second read is E16-again
    if t.load(f.c) != f.p:
        return "E16-again"
    f.a = f.c
    return "E21"


def goes_on(t, l, f):  # E16-again
    x = t.load(f.c)
    if x != 0:
        f.c = x
        return "E16"
    return "E17" if f.m == t.L else below(f, "m", "E15", "E13")


def queue_first(t, l, f):  # for E1
    t.LQ[l] = f.q
    return "E2"


def node_second(t, l, f):  # for E2
    t.LN[l] = f.n
    f.k = l
    return below(f, "k", "E7", "E3")


WRONG = {
    "no-walk": ("no walk before the link is closed: E10, E19 and E23 left out",
                {"E9": going(E9, "E11"), "E18": going(E18, "E20"), "E22": going(E22, "E24")}),
    "no-walk-E10": ("the walk E10 left out", {"E9": going(E9, "E11")}),
    "no-walk-E19": ("the walk E19 left out", {"E18": going(E18, "E20")}),
    "no-walk-E23": ("the walk E23 left out", {"E22": going(E22, "E24")}),
    "tail-untested": ("tail moved without the test at E25", {"E25": going(E25, "E26")}),
    "tail-left": ("tail never moved at E25..E27 (the paper: optional)", {"E25": going(E25, "E28")}),
    "always-stalled": ("the search E13..E16 left out, always stalled (E17)", {"E5": always_stalled}),
    "always-anchored": ("the search E13..E16 left out, tail taken as anchor", {"E5": from_tail_only, "E15": tail_is_anchor}),
    "tail-chain-only": ("the search made in tail's chain alone: E13, E14 left out", {"E5": from_tail_only}),
    "one-level-down": ("the search given up after its first chain", {"E16": one_level_down_only}),
    "D2-untested": ("D2's test left out", {"D2": going(D2, "D3")}),
    "D3-untested": ("D3's test left out", {"D3": going(D3, "D4")}),
    "E5-never": ("E5's test left out, never E6", {"E5": never_clears}),
    "E5-always": ("E5's test left out, always E6", {"E5": going(E5, "E6")}),
    "E6-store": ("E6's store left out, the level only stepped over", {"E5": steps_over}),
    "E6-clears-LN": ("LN cleared together with LQ at E6", {"E6": clears_both}),
    "walks-on": ("walking on from n after next[c]:=r, so that tail swallows the lower level's chain", {"E25": walks_on}),
    "E8-walk": ("the walk E8 left out", {"E7": going(E7, "E9")}),
    "E1-E2": ("E1 and E2 swapped: the queue entered before the node", {"E1": queue_first, "E2": node_second}),
    "E28-E29": ("E28 and E29 swapped: the node cleared before the queue", {"E28": going(E29, "E29"), "E29": last_store}),
    "E11-E12": ("E11 and E12 swapped: tail moved before the mark", {"E11": going(E12, "E12"), "E12": going(E11, "E28")}),
    "E11-store": ("E11's and E26's stores left out: the mark stays at n", {"E10": lambda t, l, f: walk(t, f, "E12"),
                  "E25": lambda t, l, f: "E27" if t.tail[f.q] == f.a else "E28"}),
    "two-reads": ("E8, E10, E16, E19 and E23 read next[c] twice, as the paper writes it",
                  {**tests_then_loads("E8", "E9"), **tests_then_loads("E10", "E11"), "E16": compares, "E16-again": goes_on,
                   **tests_then_loads("E19", "E20"), **tests_then_loads("E23", "E24")}),
    "D6-next": ("D6 does not clear next", {"D6": hands_in_as_it_is}),
    "D7-next": ("D7 does not clear next", {"D7": keeps_next}),
}  # fmt: skip

# ---------------------------------------------------------------------------------------------------
# A history: the table, and of each queue what demand 3 still has to hold to. `owed` is the list of its
# last quiet moment without what was returned since (None where another node came first); `out` says of
# each node how many times more often it was handed in than returned; a frame's `due` is what a dequeue
# must return that began on a quiet queue, while nothing else has begun since.


class Broken(Exception):
    """Demand 3 fails; the text says how."""


class History(Table):
    def __init__(self, L, Q, N, lines):
        super().__init__(L, Q, N)
        self.lines = lines
        self.owed = [()] * (Q + 1)
        self.out = [[0] * (N + 1) for _ in range(Q + 1)]

    def copy(self):
        t = object.__new__(History)
        t.L, t.Q, t.N, t.lines = self.L, self.Q, self.N, self.lines
        t.LN, t.LQ, t.head, t.tail = self.LN[:], self.LQ[:], self.head[:], self.tail[:]
        t.next, t.use, t.owed, t.out = self.next[:], self.use[:], self.owed[:], [each[:] for each in self.out]
        t.frames = [f and f.copy() for f in self.frames]
        return t

    def key(self):
        words = (self.LN, self.LQ, self.head, self.tail, self.next, self.use, self.owed, *self.out)
        return (*map(tuple, words), *(f and f.key() for f in self.frames))

    def top(self):
        """The highest level that runs, or -1."""
        return max((l for l in range(self.L) if self.frames[l]), default=-1)

    def after(self, moves):
        """This table after the last of the moves, a begin or "S"."""
        if moves is None:
            return self
        t = self.copy()
        if moves[1] == "S":
            t.step()
        else:
            t.begin(*moves[1])
        return t

    def quiet(self, q):
        return not any(f and f.q == q for f in self.frames)

    def listing(self, q):
        """The nodes from head along next to tail, the sentinel left out."""
        found, node = [], self.head[q]
        while len(found) <= self.N:
            found.append(node)
            if node == self.tail[q]:
                return tuple(each for each in found if each != q)
            node = self.next[node]
            if node == 0:
                raise Broken(f"queue {q}: tail {self.tail[q]} is not reached from head {self.head[q]}")
        raise Broken(f"queue {q}: the chain from head {self.head[q]} runs in a circle")

    def begin(self, level, q, n):
        """An enqueue of n, or for n 0 a dequeue."""
        due = (self.listing(q) + (0,))[0] if n == 0 and self.quiet(q) else None
        for f in self.frames:
            if f:
                f.due = None
        if n:
            self.frames[level] = Frame(1, "E1", q, n, None)
            self.use[n] = q
            self.out[q][n] += 1
        else:
            self.frames[level] = Frame(2, "D1", q, 0, due)

    def step(self):
        """One step; answers the frame, its level and its node if it ended."""
        level = self.top()
        f = self.frames[level]
        f.steps = min(f.steps + 1, 65535)
        point = f.point
        try:
            to = self.lines[point](self, level, f)
        except Refused:
            raise Broken(f"refusal 10 at {point} of level {level}") from None
        if isinstance(to, str):
            f.point = to
            if to == point:
                self.walk_ends(f)
            return None
        self.frames[level] = None
        self.ended(f, to)
        return f, level, to

    def walk_ends(self, f):
        node = f.c
        for _ in range(self.N + 1):
            if node == 0 or f.point == "E16" and self.next[node] == f.p:
                return
            node = self.next[node]
        raise Broken(f"the walk at {f.point} never ends")

    def ended(self, f, node):
        q = f.q
        if f.op == 2 and node:
            self.out[q][node] -= 1
            if self.owed[q]:
                self.owed[q] = self.owed[q][1:] if self.owed[q][0] == node else None
        if f.due is not None and f.due != node:
            raise Broken(f"a dequeue alone on quiet queue {q} returned {node or 'empty'}, and {f.due or 'nothing'} was first")
        if self.quiet(q):
            self.settled(q)

    def settled(self, q):
        """What must hold at a quiet moment."""
        found = self.listing(q)
        for node in range(self.N + 1):
            if found.count(node) != self.out[q][node]:
                raise Broken(f"queue {q}: node {node} {self.fate(q, node, found)}; from head to tail stand {list(found)}")
        if self.owed[q] is None or found[: len(self.owed[q])] != self.owed[q]:
            raise Broken(f"queue {q}: the list of the last quiet moment is no beginning; from head to tail stand {list(found)}")
        self.owed[q] = found

    def fate(self, q, node, found):
        if node in found:
            return "is there once too often"
        behind = self.tail[q]
        for _ in range(self.N):
            behind = self.next[behind]
            if behind == node:
                return "stands behind tail, where no dequeue comes"
        return "is lost"

    def begins(self):
        """The begins that are accepted; of free nodes that nothing points at, and so alike, only the lowest."""
        level = self.top() + 1
        named = set(self.head + self.tail + self.LN + self.next)
        for f in self.frames:
            if f:
                named.update((f.n, f.p, f.c, f.a, f.r))
        free = [n for n in range(self.Q + 1, self.N + 1) if self.use[n] == 0]
        alike = [n for n in free if n not in named and self.next[n] == 0 and not any(out[n] for out in self.out)]
        nodes = [n for n in free if n not in alike[1:]]
        for q in range(1, self.Q + 1):
            dequeues = not any(f and f.op == 2 and f.q == q for f in self.frames)
            for at in range(level, self.L):
                yield from ((at, q, n) for n in nodes + [0] * dequeues)


# ---------------------------------------------------------------------------------------------------
# The search: all histories from fresh, those with fewer begins first, and of these those with fewer steps.


def search(lines, L, Q, N, most):
    """(how many histories it saw, the first that breaks demand 3 as (schedule lines, what is wrong), or None)."""
    seen, order = set(), itertools.count()
    heap = [(0, 0, next(order), History(L, Q, N, lines), None)]  # begins, steps, .., the table before the last of the moves
    while heap:
        begins, steps, _, t, moves = heapq.heappop(heap)
        try:
            t = t.after(moves)
        except Broken as how:
            return len(seen), (schedule(L, Q, N, moves), str(how))
        key = hash(t.key())
        if key in seen:
            continue
        seen.add(key)
        if begins < most:
            for move in t.begins():
                heapq.heappush(heap, (begins + 1, steps, next(order), t, (moves, move)))
        if t.top() >= 0:
            heapq.heappush(heap, (begins, steps + 1, next(order), t, (moves, "S")))
    return len(seen), None


def schedule(L, Q, N, moves):
    """The moves as the lines of a schedule."""
    events = []
    while moves:
        moves, move = moves
        if move != "S":
            events.append("E {} {} {}".format(*move) if move[2] else "D {} {}".format(*move))
        elif events and isinstance(events[-1], int):
            events[-1] += 1
        else:
            events.append(1)
    events = [f"S {each}" if isinstance(each, int) else each for each in reversed(events)]
    return [str(each) for each in (3, L, Q, N, len(events))] + events


# ---------------------------------------------------------------------------------------------------
# Against second/bench.py: the log by this table, on the schedules that second/make_corpus.py makes by chance.


def refusal(t, letter, level, q=0, n=0):
    if letter == "S":
        return 0
    if level >= t.L:
        return 3
    if not 1 <= q <= t.Q:
        return 4
    if letter == "E" and not t.Q < n <= t.N:
        return 5
    if any(t.frames[level:]):
        return 6
    if letter == "E" and t.use[n] != 0:
        return 7
    if letter == "D" and any(f and f.op == 2 and f.q == q for f in t.frames[:level]):
        return 8
    return 0


def steps(t, count):
    """Takes count steps; the lines of what ended, and whether something ran at each."""
    lines = []
    for _ in range(count):
        if t.top() < 0:
            return lines, False
        ended = t.step()
        if ended:
            f, level, node = ended
            lines.append(f"{'.ED'[f.op]} {level} {f.q} {node} {f.steps}")
    return lines, True


def log_of(text):
    """The log of a schedule whose text and sizes are right, each quiet moment held to demand 3."""
    _, L, Q, N, _, *events = text.decode().split("\n")[:-1]
    t, log = History(int(L), int(Q), int(N), RIGHT), []
    for at, event in enumerate(events, 1):
        letter, *numbers = event.split(" ")
        numbers = [int(each) for each in numbers]
        refused = refusal(t, letter, *numbers)
        if letter == "S":
            lines, ran = steps(t, *numbers)
            log += lines
            refused = 0 if ran else 9
        elif not refused:
            t.begin(*(numbers if letter == "E" else numbers + [0]))
        if refused:
            log.append(f"R {at} {refused}")
            break
    for q in range(1, t.Q + 1):
        log.append(" ".join(map(str, ("Q", q, *t.listing(q)))) if t.quiet(q) else f"U {q}")
    return "".join(line + "\n" for line in log).encode()


def cross(count):
    import bench
    from make_corpus import chain, ladder, reader, storm

    for seed in range(count):
        kind = (storm, ladder, reader, storm, ladder, reader, storm, chain)[seed % 8]
        text = kind(1000 + seed)
        if log_of(text) != bench.log_of(text):
            sys.exit(f"{kind.__name__}({1000 + seed}): the two logs differ")
    print(f"{count} random schedules: the step table and second/bench.py give the same logs, and demand 3 holds")


# ---------------------------------------------------------------------------------------------------

SPACES = [(2, 1, 4, 99), (3, 1, 4, 6)]  # L, Q, N and the most begins; 99 are more than it takes to meet every table


def report(label, what, changed, spaces, between):
    print(f"{label}: {what}", flush=True)
    for space in spaces:
        seen, found = search({**RIGHT, **changed}, *space)
        if found:
            print(f"  fails for L, Q, N = {space[:3]}: {found[1]}\n{between.join(found[0])}", flush=True)
            return
        print(f"  keeps demand 3 for L, Q, N = {space[:3]} up to {space[3]} begins ({seen} tables)", flush=True)


def main(words):
    if words[:1] == ["--cross"]:
        return cross(int(words[1]) if words[1:] else 2000)
    tables = {"right": ("the step table as it is", {}), **WRONG}
    if words and words[0] not in tables or len(words) not in (0, 1, 5):
        sys.exit(__doc__)
    spaces = [tuple(map(int, words[1:]))] if words[1:] else SPACES
    for label in words[:1] or tables:
        report(label, *tables[label], spaces, "\n" if words else ", ")


if __name__ == "__main__":
    main(sys.argv[1:])
