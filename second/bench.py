#!/usr/bin/env python3
"""The second program: Lee's queue from his own pseudocode, run under a schedule, with the bench's log.

It is written from the paper ("Practical Multiwriter Lock-Free Queues for Hard Real-Time Systems without
CAS", 2007) and not from the bench's step table, so that the two can be held against each other. V, P,
follow, previous_interrupt_level and find_anchor stand below as they are printed, comments included.

    second/bench.py [FILE]          the log of the schedule in FILE, or on standard input
    second/bench.py --bounds [FILE] the bounds log: an E line ends with the bound on its steps
    second/bench.py --check DIR     hold DIR/stdin, a packed file of schedules, to DIR/stdout, their logs
    second/bench.py --write DIR     make DIR/stdout (what the packed files look like: crates/corpus/README.md)
    second/bench.py --waiting FILE  hold each line of FILE, a queue, what a waiting count of it answered (code and
                                    count) and the words of the table, to the waiting count below
"""

import re
import sys

# ---------------------------------------------------------------------------------------------------
# The paper. Each operation is a generator, and `yield` is the hook: it stands before each access to
# memory that others share, and there, and nowhere else, an interrupt comes in. From one yield to the
# next is one step. Nodes and queues are numbers, null is 0, and node q is the sentinel of queue q.
#
# The hooks follow the accesses of a compiled program, as the bench's table counts them:
#  - `chain.next` is loaded once where the paper names it twice in one turn of a loop (follow and
#    find_anchor), since no higher level alters it in between;
#  - P loads head once a turn, since only P alters it and no two dequeues of one queue are nested.


class Memory:
    """What all levels share: the global level table, and of each node its next."""

    def __init__(self, levels, nodes):
        self.global_level_node = [0] * levels
        self.global_level_queue = [0] * levels
        self.next = [0] * (nodes + 1)
        self.use = [0] * (nodes + 1)  # the bench's own word, not the paper's: the queue a node was handed to


class Queue:
    def __init__(self, memory, number):
        self.memory = memory
        self.this = self.sentinel = self.head = self.tail = number

    # enqueue, put, write
    def V(self, level, node):
        memory = self.memory
        # set the global level entries
        yield
        memory.global_level_node[level] = node
        yield
        memory.global_level_queue[level] = self.this
        # interrupts will now append to our level. We can examine and correct the table in peace.
        prev_level = yield from self.previous_interrupt_level(level)
        while prev_level != -1:
            # is the previous level node the tail?
            yield
            prev = memory.global_level_node[prev_level]
            yield
            if self.tail == prev:
                # clear the queue entry from the table (but not the node)
                yield
                memory.global_level_queue[prev_level] = 0
                # go around again with the next level down
                prev_level = yield from self.previous_interrupt_level(prev_level)
            else:
                break
        # are we left with the simple case of no previous active levels?
        if prev_level == -1:
            # catch the queue's tail, and link ourselves to the end
            yield
            last = self.tail
            last = yield from self.follow(last)
            yield
            memory.next[last] = node
            # update the queue tail, now that we can catch ours
            last = yield from self.follow(node)
            yield
            memory.global_level_node[level] = last
            yield
            self.tail = last
            # higher level interrupts may now clear our level
        else:
            # has the previous level linked itself into a chain yet?
            anchor = yield from self.find_anchor(prev_level, prev)
            if anchor == 0:
                # stalled. replace the previous levels' chain
                yield
                chain = memory.next[prev]
                yield
                memory.next[prev] = node
                # catch our tail and link to the old chain
                last = yield from self.follow(node)
                yield
                memory.next[last] = chain
                # the lower continuance will catch our appended nodes
            else:
                # anchored. replace the existing chain following the anchor node
                yield
                chain = memory.next[anchor]
                yield
                memory.next[anchor] = node
                # we are now reachable. catch our own tail, and link the chain
                last = yield from self.follow(node)
                yield
                memory.next[last] = chain
                # can we pre-update the queue tail? (optional, but useful)
                yield
                if anchor == self.tail:
                    yield
                    memory.global_level_node[level] = last
                    yield
                    self.tail = last
        # clear the global level entries, during which the tail may move past us
        yield
        memory.global_level_queue[level] = 0
        yield
        memory.global_level_node[level] = 0

    # dequeue, get, read
    def P(self, level):
        memory = self.memory
        while True:
            # we can't remove the last queue entry
            yield
            head = self.head
            yield
            if head == self.tail:
                return 0
            yield
            if memory.next[head] == 0:
                return 0
            # if the queue head is the sentinel
            if head == self.sentinel:
                # then move to the next node in the chain
                yield
                following = memory.next[head]
                yield
                self.head = following
                # enqueue the sentinel again
                yield
                memory.next[self.sentinel] = 0
                yield from self.V(level, self.sentinel)
                # and loop around for the next node
            else:
                # take the head node out of the queue
                node = head
                yield
                following = memory.next[node]
                yield
                self.head = following
                yield
                memory.next[node] = 0
                memory.use[node] = 0
                # return the dequeued node
                return node

    # follow a chain to its last node, which may just be itself
    def follow(self, chain):
        while True:
            yield
            following = self.memory.next[chain]
            if following == 0:
                return chain
            chain = following

    # are there any lower interrupt levels that were also working on the same queue?
    def previous_interrupt_level(self, level):
        level -= 1
        while level >= 0:
            yield
            if self.memory.global_level_queue[level] == self.this:
                return level
            level -= 1
        return -1

    # which node (reachable from the global chains or queue tail) references a given node?
    def find_anchor(self, level, node):
        while True:
            # find the next level down
            level = yield from self.previous_interrupt_level(level)
            # which chain represents this level?
            yield
            chain = self.tail if level < 0 else self.memory.global_level_node[level]
            # go through the chain and look for the node
            while chain != 0:
                yield
                following = self.memory.next[chain]
                if following == node:
                    return chain
                chain = following
            # return if we ran out of levels to check, otherwise loop
            if level < 0:
                return 0


# ---------------------------------------------------------------------------------------------------
# The schedule text.

LIMIT = 65536
NUMBER = re.compile(rb"0|[1-9][0-9]{0,4}")
FIELDS = {b"E": 3, b"D": 2, b"S": 1}


class TextRefused(Exception):
    """Refusal 13, with the number of the first wrong line."""


def number(field, line):
    if not NUMBER.fullmatch(field) or int(field) > 65535:
        raise TextRefused(line)
    return int(field)


def event(text, line):
    letter, *fields = text.split(b" ")
    if FIELDS.get(letter) != len(fields):
        raise TextRefused(line)
    numbers = [number(field, line) for field in fields]
    if letter == b"S" and numbers == [0]:
        raise TextRefused(line)
    return (letter.decode(), *numbers)


def read_schedule(text):
    """The sizes (L, Q, N) and the events of a schedule text."""
    if len(text) > LIMIT:
        raise TextRefused(0)
    *lines, unended = text.split(b"\n")

    def line(at):
        if at > len(lines):  # missing, or without its LF
            raise TextRefused(at)
        return lines[at - 1]

    if line(1) != b"3":
        raise TextRefused(1)
    sizes = [number(line(at), at) for at in (2, 3, 4)]
    last = 5 + number(line(5), 5)
    events = [event(line(at), at) for at in range(6, last + 1)]
    if len(lines) > last or unended:
        raise TextRefused(last + 1)
    return sizes, events


# ---------------------------------------------------------------------------------------------------
# The bench: begins, steps and their refusals, and the log.


def enqueue_most(level, nodes):
    """The bound on an enqueue's own steps, which the bounds log shows."""
    return (level + 2) * (nodes + 6)


class Operation:
    def __init__(self, letter, level, queue, node, code):
        self.letter, self.level, self.queue, self.node = letter, level, queue, node
        self.steps = 0
        self.code = code
        next(code)  # up to the first access


class Bench:
    def __init__(self, levels, queues, nodes, bounds=False):
        self.levels, self.nodes, self.bounds = levels, nodes, bounds
        self.memory = Memory(levels, nodes)
        self.queues = {q: Queue(self.memory, q) for q in range(1, queues + 1)}
        self.running = []  # the operations that have begun and not ended, lowest level first
        self.log = []

    def perform(self, letter, *numbers):
        """One event; answers its refusal, or 0."""
        return {"E": self.begin_enqueue, "D": self.begin_dequeue, "S": self.steps}[letter](*numbers)

    def begin_enqueue(self, level, queue, node):
        if level >= self.levels:
            return 3
        if queue not in self.queues:
            return 4
        if not len(self.queues) < node <= self.nodes:
            return 5
        if self.running and self.running[-1].level >= level:
            return 6
        if self.memory.use[node] != 0:
            return 7
        self.memory.use[node] = queue
        self.running.append(Operation("E", level, queue, node, self.queues[queue].V(level, node)))
        return 0

    def begin_dequeue(self, level, queue):
        if level >= self.levels:
            return 3
        if queue not in self.queues:
            return 4
        if self.running and self.running[-1].level >= level:
            return 6
        if any(each.letter == "D" and each.queue == queue for each in self.running):
            return 8
        self.running.append(Operation("D", level, queue, 0, self.queues[queue].P(level)))
        return 0

    def steps(self, count):
        for _ in range(count):
            if not self.running:
                return 9
            self.step()
        return 0

    def step(self):
        """The highest level makes one access."""
        top = self.running[-1]
        top.steps = min(top.steps + 1, 65535)
        try:
            next(top.code)
        except StopIteration as ended:
            if top.letter == "D":
                top.node = ended.value
            self.running.pop()
            words = [top.letter, top.level, top.queue, top.node, top.steps]
            if self.bounds and top.letter == "E":
                words.append(enqueue_most(top.level, self.nodes))
            self.log.append(" ".join(map(str, words)))

    def words(self):
        """The table in words; of a frame only the op and the queue, the rest being in the generators."""
        memory, frames = self.memory, [[0] * 11 for _ in range(self.levels)]
        for each in self.running:
            frames[each.level][0], frames[each.level][2] = {"E": 1, "D": 2}[each.letter], each.queue
        levels = zip(memory.global_level_node, memory.global_level_queue)
        queues = [(each.head, each.tail) for each in self.queues.values()]
        nodes = [*zip(memory.next, memory.use)][1:]
        parts = [[len(part), *(word for each in part for word in each)] for part in ([*levels], queues, nodes, frames)]
        return [word for part in parts for word in part]

    def show(self, queue):
        if any(each.queue == queue for each in self.running):
            return f"U {queue}"
        words, node = ["Q", str(queue)], self.queues[queue].head
        while node != 0:
            if node != queue:
                words.append(str(node))
            node = self.memory.next[node]
        return " ".join(words)


def log_of(text, bounds=False):
    """The log of a schedule text, bytes for bytes; the bounds log, if that is asked for."""
    try:
        (levels, queues, nodes), events = read_schedule(text)
    except TextRefused as refused:
        return b"T %d\n" % refused.args
    if not (1 <= levels <= 16 and 1 <= queues <= 8 and queues <= nodes <= 1024):
        return b"R 0 2\n"
    bench = Bench(levels, queues, nodes, bounds)
    for at, each in enumerate(events, 1):
        refusal = bench.perform(*each)
        if refusal:
            bench.log.append(f"R {at} {refusal}")
            break
    bench.log += [bench.show(queue) for queue in bench.queues]
    return "".join(line + "\n" for line in bench.log).encode()


# ---------------------------------------------------------------------------------------------------
# The waiting count, asked of a table's words, which may be anything.


def sections(words):
    """The levels, queues, nodes and frames of a table, each a list of their words; none if it is no table."""
    at, parts = 0, []
    for width, most in ((2, 16), (2, 8), (2, 1024), (11, 16)):
        if at >= len(words) or not 1 <= words[at] <= most:
            return None
        start, at = at + 1, at + 1 + width * words[at]
        parts.append([words[place : place + width] for place in range(start, at, width)])
    levels, queues, nodes, frames = parts
    return parts if at <= len(words) and len(queues) <= len(nodes) and len(levels) == len(frames) else None


class CopiedQueue(Queue):
    """A queue in a copy of the table with one more idle level on top. To ask for the next of what is no node is a KeyError."""

    def __init__(self, number, levels, queues, nodes):
        memory = Memory(len(levels) + 1, len(nodes))
        memory.global_level_node[:-1] = [node for node, _ in levels]
        memory.global_level_queue[:-1] = [queue for _, queue in levels]
        memory.next = {node: following for node, (following, _) in enumerate(nodes, 1)}
        super().__init__(memory, number)
        self.head, self.tail = queues[number - 1]

    def find_anchor(self, level, node):
        anchor = yield from super().find_anchor(level, node)
        if anchor == 0 and self.tail == 0:  # the paper looks at no node then; the bench's table asks for the next of tail
            raise KeyError(self.tail)
        return anchor


def drained(queue, level, most):
    """How many nodes dequeues return, begun one after another, until one says empty; none if that takes more steps."""
    count, dequeue = 0, Operation("D", level, queue.this, 0, queue.P(level))
    for _ in range(most):
        try:
            next(dequeue.code)
        except StopIteration as ended:
            if ended.value == 0:
                return count
            count, dequeue = count + 1, Operation("D", level, queue.this, 0, queue.P(level))
    return None


def waiting(words, queue):
    """The waiting count of a queue: (0, count), or its refusal and 0."""
    table = sections(words)
    if table is None:
        return 1, 0
    levels, queues, nodes, frames = table
    if not 1 <= queue <= len(queues):
        return 4, 0
    if any(frame[0] == 2 and frame[2] == queue for frame in frames):
        return 8, 0
    most = (len(levels) + 3) * (len(nodes) + 7) * (len(nodes) + 1)
    try:
        count = drained(CopiedQueue(queue, levels, queues, nodes), len(levels), most)
    except KeyError:
        return 10, 0
    return (10, 0) if count is None else (0, count)


def check_waiting(path):
    with open(path) as file:
        lines = [[int(word) for word in line.split(" ")] for line in file]
    for at, (queue, code, count, *words) in enumerate(lines, 1):
        if waiting(words, queue) != (code, count):
            sys.exit(f"{path}, line {at}: a waiting count of {(code, count)}, second/bench.py has {waiting(words, queue)}")
    print(f"{len(lines)} waiting counts agree")


# ---------------------------------------------------------------------------------------------------
# The packed files of crates/corpus/, and the command line.

HEADER = 48


def title(name):
    """The first 41 bytes of a case's header; in the file of logs they are all of it."""
    return ("\n== " + name + " ").ljust(41, "=").encode()


def header(name, text):
    whole = title(name) + b" %05d\n" % len(text)
    assert len(whole) == HEADER and re.fullmatch("[a-z0-9-]{1,35}", name), name
    return whole


def unpack(packed):
    """The (name, schedule) of each case."""
    at = 0
    while at < len(packed):
        head = packed[at : at + HEADER]
        name = head[4:].split(b" ")[0].decode()
        at += HEADER + int(head[42:47])
        yield name, packed[at - int(head[42:47]) : at]


def logs_of(packed):
    return [(name, title(name) + b"\n" + log_of(text)) for name, text in unpack(packed)]


def check(folder):
    with open(folder + "/stdin", "rb") as schedules, open(folder + "/stdout", "rb") as stored:
        logs, rest = logs_of(schedules.read()), stored.read()
    for name, log in logs:
        if not rest.startswith(log):
            sys.exit(f"the log of {name} in {folder}/stdout is not what second/bench.py gives")
        rest = rest[len(log) :]
    if rest:
        sys.exit(f"{folder}/stdout goes on after the log of the last case")
    print(f"{len(logs)} logs agree")


def write(folder):
    with open(folder + "/stdin", "rb") as schedules:
        logs = logs_of(schedules.read())
    with open(folder + "/stdout", "wb") as stored:
        stored.writelines(log for _, log in logs)
    print(f"{len(logs)} logs written")


def main(words):
    whole = {"--check": check, "--write": write, "--waiting": check_waiting}
    if len(words) == 2 and words[0] in whole:
        return whole[words[0]](words[1])
    bounds = words[:1] == ["--bounds"]
    files = words[bounds:]
    if len(files) > 1 or files and files[0].startswith("-"):
        sys.exit(__doc__)
    with open(files[0], "rb") if files else sys.stdin.buffer as schedule:
        sys.stdout.buffer.write(log_of(schedule.read(), bounds))


if __name__ == "__main__":
    main(sys.argv[1:])
