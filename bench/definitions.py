"""A plain program of what images mean: values, changes, worlds, journals, two disks, snapshots and texts, for bench/changes.

It is written from the words of docs/FORMATS.md, shares nothing with the engine, and isn't quick: each rule is looked for anew in the whole lists.
"""
import dataclasses
import json

FUNCTION, JOB, CHAIN = 1, 2, 3
INPUT_CALC, INPUT_WORK, CREATE, RETURN, CALL_CALC, CALL_WORK = 1, 2, 3, 4, 5, 6
CREATED, RUNNING, WAITING, FINISHED, EXCEPTED, KILLED = 1, 2, 3, 4, 5, 6
KINDS = {FUNCTION: "calcfunction", JOB: "calcjob", CHAIN: "workchain"}
TYPES = {INPUT_CALC: "INPUT_CALC", INPUT_WORK: "INPUT_WORK", CREATE: "CREATE", RETURN: "RETURN", CALL_CALC: "CALL_CALC", CALL_WORK: "CALL_WORK"}
STATES = {CREATED: "created", RUNNING: "running", WAITING: "waiting", FINISHED: "finished", EXCEPTED: "excepted", KILLED: "killed"}
REASONS = ["overflow", "division by zero", "missing key", "wrong kind", "no such output", "bad text", "too long", "depth", "bad input"]
CALLS = (CALL_CALC, CALL_WORK)
MOST_BATCHES, DEEPEST_CALL, DEEPEST_VALUE = 4_000_000_000, 16, 32


class Unread(Exception):
    """Bytes that aren't changes: the first reason from left to right, and its place."""

    def __init__(self, reason, at):
        super().__init__(reason)
        self.at = at


class Misfit(Exception):
    """Changes that don't fit: the reason of the first that doesn't."""


class Damage(Exception):
    """Images that hold neither nothing nor a world: the disk, the place, and why."""

    def __init__(self, disk, at, reason):
        super().__init__(reason)
        self.disk, self.at = disk, at


# Changes. Texts are bytes, so that they are in order as their bytes are.

@dataclasses.dataclass(frozen=True)
class Library:
    """A library's printed text, and the names that have caching on."""
    text: bytes
    names: tuple


@dataclasses.dataclass(frozen=True)
class Data:
    """A data node. A value is a pair of its kind and its content."""
    value: tuple


@dataclasses.dataclass(frozen=True)
class Process:
    """A process and its node."""
    kind: int
    definition: bytes
    library: int
    depth: int
    label: bytes
    caching: int


@dataclasses.dataclass(frozen=True)
class Link:
    """A link."""
    source: int
    target: int
    type: int
    label: bytes


@dataclasses.dataclass(frozen=True)
class Fresh:
    """The part of a process that isn't started."""


@dataclasses.dataclass(frozen=True)
class Over:
    """The part of a process that has ended."""


@dataclasses.dataclass(frozen=True)
class Asking:
    """The part of a job that asks for its tasks."""
    task: int
    fails: int
    due: int


@dataclasses.dataclass(frozen=True)
class Checkpoint:
    """The part of a chain: pairs (block, next); pairs of a key with ("plain", value), ("one", number) or ("many", numbers); triples (key, append,
    number); a number; pairs (label, node)."""
    frames: tuple
    context: tuple
    awaiting: tuple
    calls: int
    outputs: tuple


@dataclasses.dataclass(frozen=True)
class Set:
    """What a process is from now on."""
    pid: int
    state: int
    number: int
    paused: int
    source: int
    fuel: int
    code: object
    part: object


@dataclasses.dataclass(frozen=True)
class Count:
    """How many batches there were."""
    batches: int


@dataclasses.dataclass(frozen=True)
class Kept:
    """When a process started and ended."""
    pid: int
    started: int
    ended: int


# The bytes of changes.

def big(number, size):
    """A number in so many bytes."""
    return (number % 256 ** size).to_bytes(size, "big")


def sized(content):
    """Bytes with their length before them."""
    return big(len(content), 4) + content


def listed(items):
    """Items with their count before them."""
    return big(len(items), 4) + b"".join(items)


def spelled_value(value):
    kind, content = value
    if kind == "int":
        return b"\x01" + big(content, 8)
    if kind == "bool":
        return b"\x02" + big(content, 1)
    if kind == "text":
        return b"\x03" + sized(content)
    if kind == "list":
        return b"\x04" + listed([spelled_value(it) for it in content])
    if kind == "dict":
        return b"\x05" + listed([sized(key) + spelled_value(it) for key, it in content])
    return b"\x06" + listed([sized(name) + sized(it) for name, it in content])


def spelled_holding(holding):
    kind, content = holding
    if kind == "plain":
        return b"\x01" + spelled_value(content)
    if kind == "one":
        return b"\x02" + big(content, 4)
    return b"\x03" + listed([big(it, 4) for it in content])


def spelled_part(part):
    if isinstance(part, Fresh):
        return b"\x00"
    if isinstance(part, Over):
        return b"\x03"
    if isinstance(part, Asking):
        return b"\x02" + big(part.task, 1) + big(part.fails, 1) + big(part.due, 8)
    return (b"\x01" + listed([big(block, 4) + big(at, 4) for block, at in part.frames])
            + listed([sized(key) + spelled_holding(holding) for key, holding in part.context])
            + listed([sized(key) + big(append, 1) + big(pid, 4) for key, append, pid in part.awaiting])
            + big(part.calls, 4) + listed([sized(label) + big(node, 4) for label, node in part.outputs]))


def spelled_change(it):
    if isinstance(it, Library):
        return b"\x01" + sized(it.text) + listed([sized(name) for name in it.names])
    if isinstance(it, Data):
        return b"\x02" + spelled_value(it.value)
    if isinstance(it, Process):
        return b"\x03" + big(it.kind, 1) + sized(it.definition) + big(it.library, 4) + big(it.depth, 4) + sized(it.label) + big(it.caching, 1)
    if isinstance(it, Link):
        return b"\x04" + big(it.source, 4) + big(it.target, 4) + big(it.type, 1) + sized(it.label)
    if isinstance(it, Set):
        code = b"\x00" if it.code is None else b"\x01" + big(it.code, 8)
        return (b"\x05" + big(it.pid, 4) + big(it.state, 1) + big(it.number, 4) + big(it.paused, 1) + big(it.source, 4) + big(it.fuel, 8) + code
                + spelled_part(it.part))
    if isinstance(it, Count):
        return b"\x06" + big(it.batches, 4)
    return b"\x07" + big(it.pid, 4) + big(it.started, 4) + big(it.ended, 4)


def spelled(changes):
    """The payload of these changes, in their order or lack of it."""
    return listed([spelled_change(it) for it in changes])


# Reading them.

class Reading:
    """Bytes that are read from left to right. Of libraries it knows the texts that it is given, with their definitions, or with None for a wrong one."""

    def __init__(self, data, texts):
        self.data, self.at, self.texts = data, 0, texts

    def take(self, count):
        """So many bytes."""
        if len(self.data) - self.at < count:
            raise Unread("truncated", len(self.data))
        self.at += count
        return self.data[self.at - count:self.at]

    def number(self, size):
        return int.from_bytes(self.take(size), "big")

    def within(self, what, least, most, size=1):
        """A number that has to lie between these."""
        at = self.at
        number = self.number(size)
        if not least <= number <= most:
            raise Unread("bad tag: " + what, at)
        return number

    def text(self):
        """A text."""
        length = self.number(4)
        at = self.at
        content = self.take(length)
        try:
            content.decode("utf-8")
        except UnicodeDecodeError:
            raise Unread("not utf-8", at) from None
        return content

    def ascending(self, what, item):
        """A list of pairs whose first parts ascend, and whose second parts are read so."""
        items = []
        for _ in range(self.number(4)):
            at = self.at
            name = self.text()
            if items and name <= items[-1][0]:
                raise Unread("unsorted: " + what, at)
            items.append((name, item()))
        return tuple(items)

    def value(self, depth=1):
        """A value at this depth."""
        at = self.at
        tag = self.within("value", 1, 6)
        if depth > DEEPEST_VALUE:
            raise Unread("too deep", at)
        if tag == 1:
            return "int", int.from_bytes(self.take(8), "big", signed=True)
        if tag == 2:
            return "bool", self.within("truth", 0, 1)
        if tag == 3:
            return "text", self.text()
        if tag == 4:
            return "list", tuple(self.value(depth + 1) for _ in range(self.number(4)))
        if tag == 5:
            return "dict", self.ascending("keys of a value", lambda: self.value(depth + 1))
        return "folder", self.ascending("names of a folder", lambda: self.take(self.number(4)))

    def holding(self):
        tag = self.within("holding", 1, 3)
        if tag == 1:
            return "plain", self.value()
        if tag == 2:
            return "one", self.number(4)
        return "many", tuple(self.number(4) for _ in range(self.number(4)))

    def context(self):
        """The keys of a chain with what they hold; a key stands once."""
        items = []
        for _ in range(self.number(4)):
            at = self.at
            key = self.text()
            if any(key == other for other, _ in items):
                raise Unread("unsorted: keys of a context", at)
            items.append((key, self.holding()))
        return tuple(items)

    def part(self):
        tag = self.within("part", 0, 3)
        if tag == 0:
            return Fresh()
        if tag == 3:
            return Over()
        if tag == 2:
            return Asking(self.within("task", 1, 4), self.within("fails", 0, 5), self.number(8))
        frames = tuple((self.number(4), self.number(4)) for _ in range(self.number(4)))
        context = self.context()
        awaiting = tuple((self.text(), self.within("append", 0, 1), self.number(4)) for _ in range(self.number(4)))
        return Checkpoint(frames, context, awaiting, self.number(4), self.ascending("outputs", lambda: self.number(4)))

    def library(self):
        at = self.at + 4
        text = self.text()
        if self.texts[text] is None:
            raise Unread("bad library", at)
        return Library(text, tuple(name for name, _ in self.ascending("names of a library", lambda: None)))

    def set(self):
        pid, state = self.number(4), self.within("state", 1, 6)
        least, most = {FINISHED: (0, 2 ** 32 - 1), EXCEPTED: (1, 9)}.get(state, (0, 0))
        number = self.within("number behind a state", least, most, 4)
        paused, source, fuel = self.within("mark", 0, 1), self.number(4), self.number(8)
        code = int.from_bytes(self.take(8), "big", signed=True) if self.within("code", 0, 1) else None
        return Set(pid, state, number, paused, source, fuel, code, self.part())

    def change(self):
        tag = self.within("change", 1, 7)
        if tag == 1:
            return self.library()
        if tag == 2:
            return Data(self.value())
        if tag == 3:
            return Process(self.within("kind", 1, 3), self.text(), self.number(4), self.number(4), self.text(), self.within("caching", 0, 1))
        if tag == 4:
            return Link(self.number(4), self.number(4), self.within("type", 1, 6), self.text())
        if tag == 5:
            return self.set()
        if tag == 6:
            return Count(self.number(4))
        return Kept(self.number(4), self.number(4), self.number(4))

    def changes(self):
        """All of the bytes, as a list of changes."""
        items = [self.change() for _ in range(self.number(4))]
        if self.at < len(self.data):
            raise Unread("trailing", self.at)
        return items


# Worlds.

@dataclasses.dataclass(frozen=True)
class Record:
    """What is recorded of a process."""
    pid: int
    made: Process
    now: Set
    started: int = 0
    ended: int = 0

    def has_ended(self):
        return self.now.state in (FINISHED, EXCEPTED, KILLED)


class World:
    """Lists alone: nodes, each a Data or a Process, numbered from 1; links; records; libraries, numbered from 1; and the number of batches."""

    def __init__(self):
        self.nodes, self.links, self.records, self.libraries, self.batches = [], [], [], [], 0

    def copy(self):
        other = World()
        other.nodes, other.links, other.records = list(self.nodes), list(self.links), list(self.records)
        other.libraries, other.batches = list(self.libraries), self.batches
        return other

    def is_empty(self):
        return not (self.nodes or self.links or self.records or self.libraries or self.batches)

    def node(self, number):
        """The node of a number, or None."""
        return self.nodes[number - 1] if 1 <= number <= len(self.nodes) else None

    def is_data(self, number):
        return isinstance(self.node(number), Data)

    def record(self, pid):
        """The record of a process, or None."""
        return next((it for it in self.records if it.pid == pid), None)

    def is_calculation(self, number):
        return isinstance(self.node(number), Process) and self.node(number).kind != CHAIN

    def is_workflow(self, number):
        return isinstance(self.node(number), Process) and self.node(number).kind == CHAIN

    def called(self, pid):
        """The processes that a process called, in the order of the links."""
        return [it.target for it in self.links if it.source == pid and it.type in CALLS]


class Batch:
    """A list of changes with what a change is tested by: the batch's number, its Kepts, and why a Count and a Kept may not stand in it."""

    def __init__(self, world, changes):
        self.number = world.batches + 1
        self.kepts = [it for it in changes if isinstance(it, Kept)]
        self.counts = [it for it in changes if isinstance(it, Count)]
        self.fault = misplaced(world, changes, self.kepts, self.counts)

    def started(self, record):
        """When a process has started, as the snapshot tells it, or as recorded."""
        return next((it.started for it in self.kepts if it.pid == record.pid), 0) if self.counts else record.started

    def ended(self, record):
        """When a process ended, likewise."""
        return next((it.ended for it in self.kepts if it.pid == record.pid), 0) if self.counts else record.ended


def misplaced(world, changes, kepts, counts):
    """Why a Count and a Kept may not stand in these changes, or None."""
    numbers = [len(world.nodes) + at + 1 for at, it in enumerate(it for it in changes if isinstance(it, (Data, Process))) if isinstance(it, Process)]
    pids = [it.pid for it in kepts]
    if not world.is_empty():
        return "snapshot: the world isn't empty"
    if len(counts) != 1:
        return "snapshot: two Counts" if counts else "snapshot: a Kept and no Count"
    if changes[-1] is not counts[0]:
        return "snapshot: the Count isn't last"
    if any(not isinstance(it, Kept) for it in changes[len(changes) - 1 - len(kepts):-1]):
        return "snapshot: a Kept isn't directly before the Count"
    if len(set(pids)) < len(pids):
        return "snapshot: a Kept twice"
    if set(pids) - set(numbers):
        return "snapshot: a Kept of no process"
    return "snapshot: no Kept of a process" if set(numbers) - set(pids) else None


def must(holds, reason):
    """Refuses for this reason, if something doesn't hold."""
    if not holds:
        raise Misfit(reason)


def applied(world, changes, texts):
    """The world after a list of changes, if each fits what stands before it and each process is settled after the last one."""
    must(world.batches < MOST_BATCHES, "a batch too many")
    batch, after = Batch(world, changes), world.copy()
    for change in changes:
        apply(after, batch, change, texts)
    for record in after.records:
        must_be_settled(after, record)
    after.batches = batch.counts[0].batches if batch.counts else batch.number
    return after


def apply(world, batch, change, texts):
    """Puts one change into a world, if it fits."""
    if isinstance(change, Library):
        must(all(a < b for a, b in zip(change.names, change.names[1:])), "library: names")
        world.libraries.append(change)
    elif isinstance(change, Data):
        world.nodes.append(change)
    elif isinstance(change, Process):
        must_fit_process(world, change, texts)
        world.nodes.append(change)
        pid = len(world.nodes)
        world.records.append(Record(pid, change, Set(pid, CREATED, 0, 0, 0, 0, None, Fresh())))
    elif isinstance(change, Link):
        must_fit_link(world, change)
        world.links.append(change)
    elif isinstance(change, Set):
        record = must_fit_set(world, batch, change, texts)
        world.records = [record if it.pid == record.pid else it for it in world.records]
    else:
        apply_count(world, batch, change)


def apply_count(world, batch, change):
    """A Count or a Kept."""
    must(batch.fault is None, batch.fault)
    count = batch.counts[0].batches
    if isinstance(change, Count):
        must(count <= MOST_BATCHES, "count: too great")
        return
    record = world.record(change.pid)
    must(change.started <= count, "kept: started above the Count")
    must(change.ended <= count, "kept: ended above the Count")
    must(change.ended == 0 or record.has_ended(), "kept: ended, of a process that hasn't")
    must(change.ended > 0 or not record.has_ended(), "kept: not ended, of a process that has")
    must(change.ended == 0 or change.ended >= change.started, "kept: ended before it started")
    record = dataclasses.replace(record, started=change.started, ended=change.ended)
    world.records = [record if it.pid == record.pid else it for it in world.records]


def definition_of(world, library, name, texts):
    """The kind of a definition with the lengths of its blocks, or None."""
    if not 1 <= library <= len(world.libraries):
        return None
    return texts[world.libraries[library - 1].text].get(name)


def must_fit_process(world, change, texts):
    """The library has the definition, which is of the kind, and the depth is 1 to 16."""
    must(1 <= change.library <= len(world.libraries), "process: no library")
    found = definition_of(world, change.library, change.definition, texts)
    must(found is not None, "process: no definition")
    must(found[0] == change.kind, "process: another kind")
    must(change.depth >= 1, "process: depth 0")
    must(change.depth <= DEEPEST_CALL, "process: depth above 16")


def must_fit_link(world, link):
    """The rules of links, and those of calls."""
    name = TYPES[link.type]
    must(world.node(link.source) is not None, f"link {name}: no source")
    must(world.node(link.target) is not None, f"link {name}: no target")
    source, target = {
        INPUT_CALC: (World.is_data, World.is_calculation), INPUT_WORK: (World.is_data, World.is_workflow),
        CREATE: (World.is_calculation, World.is_data), RETURN: (World.is_workflow, World.is_data),
        CALL_CALC: (World.is_workflow, World.is_calculation), CALL_WORK: (World.is_workflow, World.is_workflow)}[link.type]
    must(source(world, link.source) and target(world, link.target), f"link {name}: wrong ends")
    alike = [it for it in world.links if it.type == link.type]
    if link.type != CREATE:
        must(all(it != link for it in alike), f"link {name}: triple taken")
    if link.type in (INPUT_CALC, INPUT_WORK):
        must(all((it.target, it.label) != (link.target, link.label) for it in alike), f"link {name}: label taken")
    if link.type in (CREATE, RETURN):
        must(all((it.source, it.label) != (link.source, link.label) for it in alike), f"link {name}: label taken")
    if link.type == CREATE:
        must(all(it.target != link.target for it in alike), f"link {name}: has a creator")
    if link.type in CALLS:
        must(all(it.target != link.target for it in world.links if it.type in CALLS), f"link {name}: has a caller")
        caller, called = world.record(link.source).made, world.record(link.target).made
        must(called.depth == caller.depth + 1, f"link {name}: depth")
        must(called.label == link.label, f"link {name}: label of a call")


def must_fit_set(world, batch, change, texts):
    """The record that a Set leaves, if it fits."""
    record = world.record(change.pid)
    must(record is not None, "set: no process")
    must(not record.has_ended(), "set: ended")
    must_fit_state(record.made.kind, change)
    if isinstance(change.part, Asking):
        must(change.part.fails <= 5, "set: fails above 5")
        must(change.part.fails < 5 or change.paused, "set: five fails and no mark")
    if isinstance(change.part, Checkpoint):
        must_fit_checkpoint(world, record, change.part, texts)
    started, ended = record.started, record.ended
    if record.now.state == CREATED and change.state not in (CREATED, KILLED):
        started = batch.number
    if change.state in (FINISHED, EXCEPTED, KILLED):
        ended = batch.number
    after = dataclasses.replace(record, now=change, started=started, ended=ended)
    if change.source != 0:
        must_fit_source(world, batch, change.source, batch.started(after))
    return after


def must_fit_state(kind, change):
    """Part, state and kind of a process fit."""
    part, state = change.part, change.state
    told = f"set: {STATES[state]} {KINDS[kind]} with {type(part).__name__}"
    if state == CREATED:
        must(isinstance(part, Fresh), told)
    elif state == RUNNING:
        must(kind == CHAIN and isinstance(part, Checkpoint), told)
        must(not part.awaiting, "set: running and awaiting")
    elif state == WAITING and kind == CHAIN:
        must(isinstance(part, Checkpoint), told)
        must(part.awaiting, "set: waiting and awaiting nothing")
    elif state == WAITING:
        must(kind == JOB and isinstance(part, Asking), told)
    else:
        must(isinstance(part, Over), told)


def must_fit_checkpoint(world, record, part, texts):
    """A chain stands in its outline, awaits what it called, and names what is there."""
    blocks = definition_of(world, record.made.library, record.made.definition, texts)[1]
    must(part.frames, "checkpoint: no frame")
    must(all(block < len(blocks) for block, _ in part.frames), "checkpoint: no such block")
    must(all(at <= blocks[block] for block, at in part.frames), "checkpoint: past a block's end")
    called = world.called(record.pid)
    must(all(world.record(pid) for _, _, pid in part.awaiting), "checkpoint: awaits no process")
    must(all(pid in called for _, _, pid in part.awaiting), "checkpoint: awaits what it didn't call")
    must(all(a[0] < b[0] for a, b in zip(part.outputs, part.outputs[1:])), "checkpoint: outputs not ascending")
    must(all(world.node(node) for _, node in part.outputs), "checkpoint: an output that isn't there")
    must(all(world.is_data(node) for _, node in part.outputs), "checkpoint: an output that is no data")
    ones = [it for _, (kind, it) in part.context if kind == "one"]
    many = [it for _, (kind, numbers) in part.context if kind == "many" for it in numbers]
    must(all(world.record(it) for it in ones), "checkpoint: a child that is no process")
    must(all(world.record(it) for it in many), "checkpoint: a child of a list that is no process")


def must_fit_source(world, batch, source, started):
    """A source is a calculation that ended before the process has started."""
    must(world.node(source) is not None, "source: no node")
    must(not world.is_data(source), "source: a data node")
    must(world.is_calculation(source), "source: a workflow")
    ended = batch.ended(world.record(source))
    must(ended > 0, "source: not ended")
    must(started > 0, "source: of what hasn't started")
    must(ended < started, "source: ended too late")


def must_be_settled(world, record):
    """A process that hasn't ended has no outputs, and as many calls as it counts."""
    if record.has_ended():
        return
    must(all((it.source, it.type) != (record.pid, CREATE) for it in world.links), "settled: a live process with a CREATE link")
    must(all((it.source, it.type) != (record.pid, RETURN) for it in world.links), "settled: a live process with a RETURN link")
    calls = len(world.called(record.pid))
    if isinstance(record.now.part, Checkpoint):
        must(calls == record.now.part.calls, "settled: calls differ")
    else:
        must(calls == 0, "settled: calls without a checkpoint")


def snapshot(world):
    """The changes that make a world of the empty one."""
    return (list(world.libraries) + list(world.nodes) + list(world.links) + [it.now for it in world.records]
            + [Kept(it.pid, it.started, it.ended) for it in world.records] + [Count(world.batches)])


# Images.

HEADER = b"WCJNL\0\0"


def written(version, generation, payloads):
    """The image of a journal."""
    image = HEADER + big(version, 1) + big(generation, 8)
    for at, payload in enumerate(payloads):
        kind = b"\x02" if at == 0 and generation >= 2 else b"\x01"
        image += b"\x01" + (kind + big(len(payload), 8) if version == 2 else big(len(payload), 4)) + payload
    return image + b"\x00"


def journal_of(disk, image):
    """The generation of a disk's image and its payloads with their places, or None."""
    if len(image) <= 1 or image[0] != HEADER[0]:
        return None
    for at, byte in enumerate(HEADER):
        if at >= len(image) or image[at] != byte:
            raise Damage(disk, at, "image: the header")
    if len(image) < 8 or image[7] not in (1, 2):
        raise Damage(disk, 7, "image: the version")
    if len(image) < 16 or not any(image[8:16]):
        raise Damage(disk, min(15, len(image)), "image: the generation")
    generation, at, payloads = int.from_bytes(image[8:16], "big"), 16, []
    while True:
        if at >= len(image):
            raise Damage(disk, len(image), "image: no gate")
        if image[at] != 1:
            return generation, payloads
        kind = 2 if not payloads and generation >= 2 else 1
        if image[7] == 2 and image[at + 1:at + 2] != big(kind, 1):
            raise Damage(disk, min(at + 1, len(image)), "image: the kind of a batch")
        first = at + (10 if image[7] == 2 else 5)
        length = int.from_bytes(image[first - (8 if image[7] == 2 else 4):first], "big")
        if len(image) < first + length:
            raise Damage(disk, len(image), "image: a batch isn't whole")
        payloads.append((first, image[first:first + length]))
        at = first + length


def held(one, two, texts):
    """The disk of the store, its generation, and the world that two images hold; or None."""
    journals = [journal_of(1, one), journal_of(2, two)]
    if journals == [None, None]:
        for disk, image in ((1, one), (2, two)):
            if len(image) > 17:
                raise Damage(disk, 0, "image: no journal")
        return None
    generations = [it[0] if it else 0 for it in journals]
    if generations[0] == generations[1]:
        raise Damage(2, 15, "image: two of one generation")
    disk = 1 if generations[0] > generations[1] else 2
    generation, payloads = journals[disk - 1]
    if generation >= 2 and not payloads:
        raise Damage(disk, 16, "image: no snapshot")
    return disk, generation, played(disk, generation, payloads, texts)


def played(disk, generation, payloads, texts):
    """The world that the payloads of a journal make."""
    world = World()
    for place, (first, payload) in enumerate(payloads):
        try:
            changes = Reading(payload, texts).changes()
        except Unread as it:
            raise Damage(disk, first + it.at, str(it)) from None
        counts = [it for it in changes if isinstance(it, Count)]
        if place == 0 and generation >= 2:
            if not counts or not isinstance(changes[-1], Count):
                raise Damage(disk, first, "batch: a snapshot doesn't end in a Count")
            if len(counts) > 1:
                raise Damage(disk, first, "batch: a snapshot with two Counts")
        elif counts:
            raise Damage(disk, first, "batch: a Count in another than a snapshot")
        elif any(isinstance(it, Kept) for it in changes):
            raise Damage(disk, first, "batch: a Kept in another than a snapshot")
        try:
            world = applied(world, changes, texts)
        except Misfit as it:
            raise Damage(disk, first, str(it)) from None
    return world


# Texts, in bytes, since labels are.

def plain(value):
    """A value as JSON has it."""
    kind, content = value
    if kind == "text":
        return content.decode()
    if kind == "bool":
        return bool(content)
    if kind == "list":
        return [plain(it) for it in content]
    if kind == "dict":
        return {key.decode(): plain(it) for key, it in content}
    if kind == "folder":
        return {name.decode(): told_file(it) for name, it in content}
    return content


def told_file(content):
    """The content of a file as JSON has it."""
    try:
        return content.decode()
    except UnicodeDecodeError:
        return {"hex": content.hex()}


def told_value(value):
    return (value[0] + " " + json.dumps(plain(value), ensure_ascii=False, separators=(",", ":"))).encode()


def told_state(record):
    """The state of a process."""
    state = STATES[record.now.state]
    if record.now.state == FINISHED:
        state += f" {record.now.number}"
    if record.now.state == EXCEPTED:
        state += " " + REASONS[record.now.number - 1]
    return state.encode()


def told_process(record):
    """The line of a process, without its mark."""
    return b"%d %s %s %s" % (record.pid, KINDS[record.made.kind].encode(), record.made.definition, told_state(record))


def list_text(world):
    """What `list` gives."""
    return b"".join(told_process(it) + (b" paused" if it.now.paused else b"") + b"\n" for it in world.records)


def graph_text(world):
    """What `graph` gives."""
    lines = []
    for at, node in enumerate(world.nodes):
        told = b"data " + told_value(node.value) if isinstance(node, Data) else KINDS[node.kind].encode() + b" " + node.definition
        lines.append(b"node %d %s\n" % (at + 1, told))
    lines += [b"link %d %d %s %s\n" % (it.source, it.target, TYPES[it.type].encode(), it.label) for it in world.links]
    return b"".join(lines)


def first_of(numbers):
    """The first number, or that there is none."""
    return b"%d" % numbers[0] if numbers else b"none"


def show_text(world, number):
    """What `show` gives of a node."""
    into = [it for it in world.links if it.target == number]
    out = [it for it in world.links if it.source == number]
    if world.is_data(number):
        creator = [it.source for it in into if it.type == CREATE]
        return b"%d data %s\ncreator %s\n" % (number, told_value(world.node(number).value), first_of(creator))
    record = world.record(number)
    lines = [told_process(record), b"paused yes" if record.now.paused else b"paused no",
             b"caller " + first_of([it.source for it in into if it.type in CALLS]),
             b"cached_from " + first_of([record.now.source] if record.now.source else [])]
    lines += [b"input %s %d" % it for it in sorted((it.label, it.source) for it in into if it.type in (INPUT_CALC, INPUT_WORK))]
    lines += [b"output %s %d" % it for it in sorted((it.label, it.target) for it in out if it.type in (CREATE, RETURN))]
    lines += [b"called %s %d" % (it.label, it.target) for it in out if it.type in CALLS]
    return b"".join(it + b"\n" for it in lines)


def damage_text(images, damage):
    """What every command on a damaged store gives."""
    image = images[damage.disk - 1]
    found = b"byte %d" % image[damage.at] if damage.at < len(image) else b"end"
    return b"damaged: disk %d at %d %s\n" % (damage.disk, damage.at, found)
