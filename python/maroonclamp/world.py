"""What the batches of a store make: nodes, processes and links. `docs/FORMATS.md`, "Changes" and "Link rules", is the source of the rules.

What isn't judged here: whether the text of a library parses and checks, and whether the frames of a checkpoint are places of its outline. The program judges these.
"""
import re

from .errors import Unread
from .values import Cursor

KINDS = {1: "calcfunction", 2: "calcjob", 3: "workchain"}
STATES = {1: "created", 2: "running", 3: "waiting", 4: "finished", 5: "excepted", 6: "killed"}
REASONS = ("", "overflow", "division by zero", "missing key", "wrong kind", "no such output", "bad text", "too long", "depth", "bad input")
INPUT_CALC, INPUT_WORK, CREATE, RETURN, CALL_CALC, CALL_WORK = TYPES = ("INPUT_CALC", "INPUT_WORK", "CREATE", "RETURN", "CALL_CALC", "CALL_WORK")
TASKS = ("", "upload", "submit", "update", "retrieve")
MOST_NODES, MOST_BATCHES, DEEPEST_CALL, MOST_FAILS = 8_000_000, 4_000_000_000, 16, 5


class Misfit(Exception):
    """A change that doesn't fit what is there."""


def fits(condition):
    """What has to hold of a change."""
    if not condition:
        raise Misfit


class Value:
    """A data node: its number, its value, the process that made it, or None, and the batch in which it came, or 0."""

    def __init__(self, number, batch, value):
        self.number, self.batch, self.value, self.creator = number, batch, value, None


class Checkpoint:
    """Where a chain stands: which calls it awaits, how many it made, and what it keeps to give back."""

    def __init__(self, cursor):
        self.frames = [(cursor.number(4), cursor.number(4)) for _ in range(cursor.number(4))]
        self.children, keys = [], set()
        for _ in range(cursor.number(4)):
            self.context(cursor, keys)
        self.awaited = [(cursor.text(), cursor.byte((0, 1)), cursor.number(4)) for _ in range(cursor.number(4))]
        self.made = cursor.number(4)
        self.outputs = cursor.pairs(lambda: cursor.number(4))

    def context(self, cursor, keys):
        """One key of the context."""
        begin = cursor.at
        key = cursor.text()
        if key in keys:
            raise Unread("unsorted", begin)
        keys.add(key)
        tag = cursor.byte((1, 2, 3))
        if tag == 1:
            cursor.value()
        else:
            self.children += [cursor.number(4) for _ in range(cursor.number(4) if tag == 3 else 1)]


class Standing:
    """What a process is from now on: a change 05."""

    def __init__(self, cursor):
        self.number, self.state = cursor.number(4), cursor.byte(STATES)
        begin = cursor.at
        self.status = cursor.number(4)
        if not (self.state == 4 or self.status == 0 and self.state != 5 or self.state == 5 and 1 <= self.status < len(REASONS)):
            raise Unread("bad tag", begin)
        self.paused = cursor.byte((0, 1)) == 1
        self.source, self.fuel = cursor.number(4), cursor.number(8)
        self.code = int.from_bytes(cursor.take(8), "big", signed=True) if cursor.byte((0, 1)) else None
        self.part = cursor.byte((0, 1, 2, 3))
        self.task = self.fails = self.due = 0
        self.checkpoint = Checkpoint(cursor) if self.part == 1 else None
        if self.part == 2:
            self.task, self.fails, self.due = cursor.byte((1, 2, 3, 4)), cursor.byte(range(MOST_FAILS + 1)), cursor.number(8)


FRESH = Standing(Cursor(bytes([0, 0, 0, 0, 1]) + bytes(4 + 1 + 4 + 8 + 1 + 1)))


class ProcessNode:
    """A process: what it was made as, what it is now (`now`), and its links as lists of pairs of label and number."""

    def __init__(self, number, batch, cursor):
        self.number, self.batch = number, batch
        self.kind = KINDS[cursor.byte(KINDS)]
        self.definition, self.library, self.depth = cursor.text(), cursor.number(4), cursor.number(4)
        self.label, self.caching = cursor.text(), cursor.byte((0, 1)) == 1
        self.now, self.started, self.ended = FRESH, 0, 0
        self.inputs, self.outputs, self.calls, self.caller = [], [], [], None

    @property
    def state(self):
        """Its state as the program prints it."""
        word = STATES[self.now.state]
        if word == "finished":
            return f"finished {self.now.status}"
        return f"excepted {REASONS[self.now.status]}" if word == "excepted" else word

    @property
    def is_live(self):
        """Whether it hasn't ended."""
        return self.now.state < 4

    @property
    def is_calculation(self):
        """Whether it is a function or a job."""
        return self.kind != "workchain"


class World:
    """What a store holds."""

    def __init__(self):
        self.nodes, self.libraries, self.links, self.batches = [], [], [], 0
        self.touched = set()
        self.heads = []

    def node(self, number):
        """A node by its number, or None."""
        return self.nodes[number - 1] if 1 <= number <= len(self.nodes) else None

    def process(self, number):
        """A process by its number, or None."""
        found = self.node(number)
        return found if isinstance(found, ProcessNode) else None

    def processes(self):
        """All processes, by their numbers."""
        return [it for it in self.nodes if isinstance(it, ProcessNode)]

    def definition_text(self, process):
        """The stored text of a process's definition."""
        found = re.search(rf"^{process.kind} {re.escape(process.definition)}\(.*?^}}$", self.libraries[process.library - 1], re.M | re.S)
        return found.group(0) if found else ""

    def exit_message(self, process):
        """What the definition says of the status with which a process finished, or None."""
        if process.now.state != 4 or process.now.status == 0:
            return None
        if process.now.status == 11:
            return "a required output was not set"
        found = re.search(rf'^  exit_code {process.now.status} "((?:[^"\\]|\\.)*)"', self.definition_text(process), re.M)
        return re.sub(r"\\(.)", lambda sign: {"n": "\n", "t": "\t"}.get(sign.group(1), sign.group(1)), found.group(1)) if found else None

    def apply(self, payload, is_snapshot):
        """Applies the changes of one batch: an Unread where they can't be read, a Misfit where they don't fit."""
        changes = changes_of(payload)
        fits(self.batches < MOST_BATCHES)
        self.batches += 1
        tags = [tag for tag, _ in changes]
        if is_snapshot:
            fits(tags.count(6) == 1 and tags[-1] == 6 and tags.count(7) == tags.count(3) and set(tags[len(tags) - 1 - tags.count(7) : -1]) <= {7})
        else:
            fits(6 not in tags and 7 not in tags)
        kept = {it[0]: it[1:] for tag, it in changes if tag == 7}
        fits(len(kept) == tags.count(7))
        for tag, change in changes:
            (None, self.library, self.value, self.made, self.link, self.set, self.counted, self.kept)[tag](change, kept if is_snapshot else None)
        for number in self.touched:
            self.judge_live(self.nodes[number - 1])
        self.touched.clear()

    def library(self, change, _):
        """A library."""
        self.libraries.append(change)
        self.heads.append(set(re.findall(r"^(calcfunction|calcjob|workchain) (\w+)\(", change, re.M)))

    def value(self, change, _):
        """A data node."""
        fits(len(self.nodes) < MOST_NODES)
        self.nodes.append(Value(len(self.nodes) + 1, self.batches, change))

    def made(self, change, _):
        """A process."""
        fits(len(self.nodes) < MOST_NODES and 1 <= change.depth <= DEEPEST_CALL)
        fits(1 <= change.library <= len(self.libraries) and (change.kind, change.definition) in self.heads[change.library - 1])
        change.number, change.batch = len(self.nodes) + 1, self.batches
        self.nodes.append(change)
        self.touched.add(change.number)

    def link(self, change, _):
        """A link, by the rules of the graph."""
        source, target, kind, label = change
        at, to = self.node(source), self.node(target)
        fits(at and to)
        forms = [("data" if isinstance(it, Value) else "work" if it.kind == "workchain" else "calc") for it in (at, to)]
        wanted = {INPUT_CALC: "data calc", INPUT_WORK: "data work", CREATE: "calc data", RETURN: "work data", CALL_CALC: "work calc", CALL_WORK: "work work"}
        fits(" ".join(forms) == wanted[kind])
        if kind in (INPUT_CALC, INPUT_WORK):
            fits(label not in (it for it, _ in to.inputs))
            to.inputs.append((label, source))
        elif kind in (CREATE, RETURN):
            fits(label not in (it for it, _ in at.outputs) and (kind == RETURN or to.creator is None))
            at.outputs.append((label, target))
            self.touched.add(source)
            to.creator = source if kind == CREATE else to.creator
        else:
            fits(to.caller is None and to.depth == at.depth + 1 and to.label == label)
            at.calls.append((label, target))
            to.caller = source
            self.touched.add(source)
        self.links.append(change)

    def set(self, change, kept):
        """What a process is from now on; in a snapshot with the moments that stand behind it."""
        it = self.process(change.number)
        fits(it and it.is_live)
        before = it.now.state
        part, chain = change.part, it.kind == "workchain"
        awaits = bool(change.checkpoint and change.checkpoint.awaited)
        fits(
            {1: part == 0, 2: part == 1 and chain and not awaits, 3: part == 1 and chain and awaits or part == 2 and it.kind == "calcjob"}.get(change.state, part == 3)
        )
        fits(change.fails < MOST_FAILS or change.paused)
        if kept is not None:
            started, ended = kept.get(it.number, (0, 0))
        else:
            started = self.batches if before == 1 and change.state not in (1, 6) else it.started
            ended = self.batches if change.state >= 4 else 0
        if change.checkpoint:
            self.judge_checkpoint(it, change.checkpoint)
        if change.source:
            source = self.process(change.source)
            over = source and (kept.get(source.number, (0, 0))[1] if kept is not None else source.ended)
            fits(source and source.is_calculation and (kept is not None or not source.is_live) and over and over < started)
        it.now, it.started, it.ended = change, started, ended
        self.touched.add(it.number)

    def judge_checkpoint(self, it, checkpoint):
        """What a checkpoint names is there."""
        called = {number for _, number in it.calls}
        fits(checkpoint.frames and all(number in called for _, _, number in checkpoint.awaited))
        fits(all(isinstance(self.node(number), Value) for number in checkpoint.outputs.values()) and all(self.process(number) for number in checkpoint.children))

    def judge_live(self, it):
        """A process that hasn't ended gave nothing back, and called as often as its checkpoint says."""
        if not it.is_live:
            return
        checkpoint = it.now.checkpoint
        fits(not it.outputs and len(it.calls) == (checkpoint.made if checkpoint else 0))

    def counted(self, change, _):
        """How many batches there were."""
        fits(change <= MOST_BATCHES)
        for it in self.processes():
            fits(it.started <= change and it.ended <= change and (it.ended == 0) == it.is_live and (it.is_live or it.ended >= it.started))
        for it in self.nodes:
            it.batch = 0
        self.batches = change

    def kept(self, change, _):
        """When a process started and ended: said before, by `set`."""
        it = self.process(change[0])
        fits(it and (it.started, it.ended) in (change[1:], (0, 0)))
        it.started, it.ended = change[1:]


def changes_of(payload):
    """The changes of a payload, as pairs of tag and content."""
    cursor = Cursor(payload)
    found = [change_of(cursor) for _ in range(cursor.number(4))]
    cursor.finish()
    return found


def change_of(cursor):
    """One change."""
    tag = cursor.byte(range(1, 8))
    if tag == 1:
        text = cursor.text()
        cursor.pairs(lambda: None)
        return tag, text
    if tag == 2:
        return tag, cursor.value()
    if tag == 3:
        return tag, ProcessNode(0, 0, cursor)
    if tag == 4:
        return tag, (cursor.number(4), cursor.number(4), TYPES[cursor.byte(range(1, 7)) - 1], cursor.text())
    if tag == 5:
        return tag, Standing(cursor)
    if tag == 6:
        return tag, cursor.number(4)
    return tag, (cursor.number(4), cursor.number(4), cursor.number(4))
