"""Random lists of changes as images of stores, for bench/changes: lists that fit, lists with something wrong at a place that is drawn, and bytes of such lists
with something altered.

What is likely to fit is put into the plain program's world at once, so that what is drawn next can build on it.
"""
import dataclasses

import definitions as plain
from definitions import (CALL_CALC, CALL_WORK, CHAIN, CREATE, CREATED, EXCEPTED, FINISHED, FUNCTION, INPUT_CALC, INPUT_WORK, JOB, KILLED, RETURN, RUNNING,
                         WAITING, Asking, Checkpoint, Count, Data, Fresh, Kept, Library, Link, Over, Process, Set)

ADD = b"calcfunction add(x: int, y: int) -> (sum: int) {\n  out sum = (x + y);\n}\n"
DOUBLE = (b'calcjob double(x: int) -> (value: int) {\n  exit_code 310 "no number" invalidates;\n  program "double";\n  arg text(x);\n  fetch "out.txt";\n'
          b'  parse {\n    exit 310 if (not has(retrieved, "out.txt"));\n    out value = int(trim(file(retrieved, "out.txt")));\n  }\n}\n')
NEST = b"""workchain nest(n: int) -> (r?: int) {
  step first {
    ctx.a = 1;
  }
  if (inputs.n > 0) {
    step second {
    }
    while (ctx.a < 3) {
      if (ctx.a == 1) {
        step third {
          ctx.a = 2;
        }
        return;
      } elif (ctx.a == 2) {
      } else {
        return 0;
      }
      step fourth {
        ctx.a = (ctx.a + 1);
      }
      step fifth {
      }
    }
  } else {
    while false {
      step sixth {
      }
    }
  }
  step last {
    out r = inputs.n;
  }
}
"""
NONE = b"workchain none() -> () {\n}\n"
TWICE = ADD + b"""workchain twice(a: int) -> (s: int) {
  step go {
    call add(x: inputs.a, y: inputs.a) to ctx.c;
  }
  step done {
    out s = ctx.c.outputs.sum;
  }
}
"""
TURNED = b'workchain add() -> () {\n  while true {\n  }\n}\ncalcjob nest() -> () {\n  program "true";\n  parse {\n  }\n}\n'
ALL = DOUBLE + NEST + ADD

# Of each library the kind of each definition, with the lengths of its blocks, counted by hand. None stands for a text that is no library's printed text.
NESTED = (CHAIN, [3, 2, 3, 2, 0, 1, 1, 1])
RIGHT = {
    ADD: {b"add": (FUNCTION, [])}, DOUBLE: {b"double": (JOB, [])}, NEST: {b"nest": NESTED}, NONE: {b"none": (CHAIN, [0])},
    TWICE: {b"add": (FUNCTION, []), b"twice": (CHAIN, [2])}, TURNED: {b"add": (CHAIN, [1, 0]), b"nest": (JOB, [])},
    ALL: {b"double": (JOB, []), b"nest": NESTED, b"add": (FUNCTION, [])}, b"": {},
}
WRONG = [b" ", b"\n", b"calcfunction", ADD[:-1], ADD + b"\n", ADD.replace(b"(x + y)", b"x + y"), ADD.replace(b"(x + y)", b"(x + z)"), ADD + ADD, b"# none\n" + ADD,
         NONE.replace(b"none", b"while")]


class Texts(dict):
    """The texts of libraries that are known, with what is known of them."""

    def __missing__(self, text):
        raise Unknown(text)


class Unknown(Exception):
    """Bytes with the text of a library of which nothing is known here."""


TEXTS = Texts(RIGHT)
TEXTS.update((text, None) for text in WRONG)

NAMES = [b"add", b"double", b"nest", b"none", b"other", b"twice"]
LABELS = [b"a", b"b", b"x", b"y", b"", b"a b", "\u00e9".encode(), b'q"\\\n', b"c_1", b"sum"]
KEYS = [b"", b"c", b"k", b"parts", "\U0001f600".encode()]
CONTENTS = [b"", b"4\n", b"\xff\x00", b'"', "\u00e9\x07\x7f".encode()]
WHOLE = [0, 1, -1, 5, 2 ** 63 - 1, -2 ** 63]
EDGES = [0, 1, 2, 3, 2 ** 31, 2 ** 32 - 1]
WIDE = [0, 0, 1, 20000, 2 ** 63, 2 ** 64 - 1]


class Draws:
    """The generator of the drill."""

    def __init__(self, seed):
        self.state = seed

    def draw(self):
        self.state = (self.state * 1103515245 + 12345) % 2 ** 31
        return self.state // 65536

    def below(self, count):
        return self.draw() % count

    def chance(self, percent):
        return self.below(100) < percent

    def one_of(self, items):
        return items[self.below(len(items))]

    def some(self, items, most):
        """Some of these items, in their order."""
        count = self.below(most + 1)
        return sorted({self.one_of(items) for _ in range(count)}) if items else []

    def weighted(self, items):
        """One of pairs of a weight and an item."""
        at = self.below(sum(weight for weight, _ in items))
        for weight, item in items:
            if at < weight:
                return item
            at -= weight
        raise AssertionError


# What is likely to fit: each answers a few changes, which go one after another.

def value(draws, depth=1):
    how = draws.weighted([(5, "int"), (2, "bool"), (3, "text"), (2, "list"), (2, "dict"), (2, "folder")] if depth < 4 else [(1, "int"), (1, "text")])
    if how == "int":
        return how, draws.one_of(WHOLE)
    if how == "bool":
        return how, draws.below(2)
    if how == "text":
        return how, draws.one_of(LABELS + CONTENTS[:2])
    if how == "list":
        return how, tuple(value(draws, depth + 1) for _ in range(draws.below(3)))
    if how == "dict":
        return how, tuple((key, value(draws, depth + 1)) for key in draws.some(KEYS, 2))
    return how, tuple((name, draws.one_of(CONTENTS)) for name in draws.some(LABELS, 2))


def deep_value(draws, depth):
    """A value of this depth."""
    inner = value(draws, 9)
    for _ in range(depth - 1):
        inner = ("list", (inner,)) if draws.chance(60) else ("dict", ((draws.one_of(KEYS), inner),))
    return inner


def known(world):
    """The definitions that a process may have."""
    return [(at + 1, name, kind) for at, it in enumerate(world.libraries) for name, (kind, _) in RIGHT[it.text].items()]


def live(world, *kinds):
    return [it for it in world.records if not it.has_ended() and it.made.kind in (kinds or (FUNCTION, JOB, CHAIN))]


def data_nodes(world):
    return [at + 1 for at, it in enumerate(world.nodes) if isinstance(it, Data)]


def a_library(draws, _):
    return [Library(draws.one_of(list(RIGHT)), tuple(draws.some(NAMES, 3)))]


def a_value(draws, _):
    return [Data(deep_value(draws, draws.one_of([31, 32])) if draws.chance(3) else value(draws))]


def a_root(draws, world):
    if not known(world):
        return a_library(draws, world)
    library, name, kind = draws.one_of(known(world))
    depth = draws.one_of([15, 16, 1 + draws.below(16)]) if draws.chance(15) else 1
    return [Process(kind, name, library, depth, draws.one_of(LABELS) if draws.chance(10) else b"", draws.below(2))]


def input_of(draws, world, pid, kind):
    data = data_nodes(world)
    return [Link(draws.one_of(data), pid, INPUT_WORK if kind == CHAIN else INPUT_CALC, draws.one_of(LABELS))] if data else []


def an_input(draws, world):
    if not world.records:
        return a_root(draws, world)
    record = draws.one_of(world.records)
    return input_of(draws, world, record.pid, record.made.kind)


def a_call(draws, world):
    callers = live(world, CHAIN)
    if not callers:
        return a_root(draws, world)
    caller = draws.one_of(callers)
    library, name, kind = draws.one_of(known(world))
    pid = len(world.nodes) + 1
    label = b"%s_%d" % (draws.one_of(KEYS), len(world.called(caller.pid)) + 1)
    made = Process(kind, name, library, caller.made.depth + 1, label, draws.below(2))
    inputs = [it for _ in range(draws.below(3)) for it in input_of(draws, world, pid, kind)]
    return [made, *inputs, Link(caller.pid, pid, CALL_WORK if kind == CHAIN else CALL_CALC, label)]


def end_of(draws, world, record):
    """A Set that ends a process."""
    state = draws.weighted([(6, FINISHED), (2, EXCEPTED), (2, KILLED)])
    number = {FINISHED: draws.one_of([0, 0, 0, 11, 310, 2 ** 32 - 1]), EXCEPTED: 1 + draws.below(9)}.get(state, 0)
    code = draws.one_of(WHOLE) if draws.chance(25) else None
    return Set(record.pid, state, number, int(draws.chance(10)), source_for(draws, world, record, state), draws.one_of(WIDE), code, Over())


def source_for(draws, world, record, state):
    """A calculation that ended before a process starts, or none."""
    batch = world.batches + 1
    started = batch if record.now.state == CREATED and state not in (CREATED, KILLED) else record.started
    found = [it.pid for it in world.records if it.made.kind != CHAIN and 0 < it.ended < started]
    return draws.one_of(found) if found and draws.chance(40) else 0


def an_end(draws, world):
    """A process ends with some outputs."""
    if not live(world):
        return a_root(draws, world)
    record = draws.one_of(live(world))
    changes, labels = [], draws.some(LABELS, 2)
    if record.made.kind == CHAIN:
        data = data_nodes(world)
        changes = [Link(record.pid, draws.one_of(data), RETURN, label) for label in labels if data]
    else:
        for at, label in enumerate(labels):
            changes += [Data(value(draws)), Link(record.pid, len(world.nodes) + at + 1, CREATE, label)]
    return [*changes, end_of(draws, world, record)]


def checkpoint(draws, world, record):
    """Where a chain may stand."""
    blocks = plain.definition_of(world, record.made.library, record.made.definition, TEXTS)[1]
    called, pids, data = world.called(record.pid), [it.pid for it in world.records], data_nodes(world)
    frames = []
    for _ in range(draws.one_of([1, 1, 2, 3])):
        block = draws.below(len(blocks))
        frames.append((block, draws.below(blocks[block] + 1)))
    context = []
    for key in draws.some(KEYS, 3):
        how = draws.below(3)
        holding = ("plain", value(draws)) if how == 0 else ("one", draws.one_of(pids)) if how == 1 else (
            "many", tuple(draws.one_of(pids) for _ in range(draws.below(3))))
        context.append((key, holding))
    if draws.chance(30):
        context.reverse()
    awaiting = [(draws.one_of(KEYS), draws.below(2), draws.one_of(called)) for _ in range(draws.below(3))] if called else []
    outputs = [(label, draws.one_of(data)) for label in draws.some(LABELS, 2) if data]
    return Checkpoint(tuple(frames), tuple(context), tuple(awaiting), len(called), tuple(outputs))


def standing_of(draws, world, record):
    """A Set of a live process that doesn't end it."""
    kind, paused, fuel = record.made.kind, draws.below(2), draws.one_of(WIDE)
    if kind == JOB and draws.chance(80):
        fails = draws.below(6)
        part, state = Asking(1 + draws.below(4), fails, draws.one_of(WIDE)), WAITING
        paused = 1 if fails == 5 else paused
    elif kind == CHAIN and draws.chance(85):
        part = checkpoint(draws, world, record)
        state = WAITING if part.awaiting else RUNNING
    else:
        part, state = Fresh(), CREATED
    code = draws.one_of(WHOLE) if draws.chance(10) else None
    return Set(record.pid, state, 0, paused, source_for(draws, world, record, state), fuel, code, part)


def a_standing(draws, world):
    return [standing_of(draws, world, draws.one_of(live(world)))] if live(world) else a_root(draws, world)


def an_alternative_end(draws, world):
    """A live process ends without an output."""
    return [end_of(draws, world, draws.one_of(live(world)))] if live(world) else a_root(draws, world)


MOVES = [(8, a_library), (14, a_value), (16, a_root), (14, an_input), (20, a_call), (14, an_end), (22, a_standing), (4, an_alternative_end)]


# What is likely not to fit: each answers changes of which the last one has something wrong.

def another(draws, items, one):
    """One of these items that is another, if there is one."""
    others = [it for it in items if it != one]
    return draws.one_of(others) if others else one


def no_node(draws, world):
    return draws.one_of([0, len(world.nodes) + 1, len(world.nodes) + 2, 2 ** 32 - 1])


def any_node(draws, world):
    return 1 + draws.below(len(world.nodes)) if world.nodes else 0


def miss_process(draws, world):
    made = a_root(draws, world)[0]
    if not isinstance(made, Process):
        return [Process(FUNCTION, b"add", 1, 1, b"", 0)]
    return [draws.one_of([
        dataclasses.replace(made, library=draws.one_of([0, len(world.libraries) + 1, 2 ** 32 - 1])),
        dataclasses.replace(made, definition=another(draws, NAMES, made.definition)),
        dataclasses.replace(made, kind=another(draws, [FUNCTION, JOB, CHAIN], made.kind)),
        dataclasses.replace(made, depth=draws.one_of([0, 17, 18, 2 ** 32 - 1])),
        dataclasses.replace(made, depth=0)])]


def miss_ends(draws, world):
    """A link of any type between any nodes, or of no node."""
    link = Link(any_node(draws, world), any_node(draws, world), 1 + draws.below(6), draws.one_of(LABELS))
    if draws.chance(30):
        link = dataclasses.replace(link, source=no_node(draws, world))
    elif draws.chance(40):
        link = dataclasses.replace(link, target=no_node(draws, world))
    return [link]


def miss_again(draws, world):
    """A link like one that is there: the same, or with another label, source or target."""
    if not world.links:
        return miss_ends(draws, world)
    kind = draws.one_of(sorted({it.type for it in world.links}))
    link = draws.one_of([it for it in world.links if it.type == kind])
    alike = [at + 1 for at, _ in enumerate(world.nodes) if fits_as(world, at + 1, link, "source")]
    onto = [at + 1 for at, _ in enumerate(world.nodes) if fits_as(world, at + 1, link, "target")]
    return [draws.one_of([
        link, dataclasses.replace(link, label=another(draws, LABELS, link.label)), dataclasses.replace(link, source=another(draws, alike, link.source)),
        dataclasses.replace(link, target=another(draws, onto, link.target))])]


def fits_as(world, number, link, end):
    """Whether a node is of the kind that stands at this end of a link."""
    there = getattr(link, end)
    return world.is_data(number) == world.is_data(there) and world.is_workflow(number) == world.is_workflow(there)


def miss_call(draws, world):
    """A call whose process has another depth or label than it should, or that is of another type, or a second call of one process."""
    changes = a_call(draws, world)
    if not isinstance(changes[-1], Link):
        return miss_ends(draws, world)
    made, link = changes[0], changes[-1]
    if draws.chance(40):
        return [dataclasses.replace(made, depth=draws.one_of([1, max(1, made.depth - 1), min(16, made.depth + 1)])), *changes[1:]]
    if draws.chance(50):
        return [*changes[:-1], dataclasses.replace(link, label=another(draws, LABELS, link.label))]
    if draws.chance(40):
        return [*changes[:-1], dataclasses.replace(link, type=another(draws, [CALL_CALC, CALL_WORK], link.type))]
    return [*changes, dataclasses.replace(link, source=another(draws, [it.pid for it in world.records if it.made.kind == CHAIN], link.source))]


def miss_number(draws, world):
    """A Set of what is no process, or has ended."""
    if not world.records:
        return [Set(any_node(draws, world), KILLED, 0, 0, 0, 0, None, Over())]
    change = end_of(draws, world, draws.one_of(world.records))
    ended = [it.pid for it in world.records if it.has_ended()]
    pids = [no_node(draws, world), *([draws.one_of(ended)] if ended else []), draws.one_of(data_nodes(world) or [0])]
    return [dataclasses.replace(change, pid=draws.one_of(pids))]


def miss_state(draws, world):
    """A Set with a state, a part and marks that are drawn apart from each other."""
    if not live(world):
        return miss_number(draws, world)
    kind = draws.one_of(sorted({it.made.kind for it in live(world)}))
    record = draws.one_of(live(world, kind))
    chain = record if kind == CHAIN else None
    standing = checkpoint(draws, world, chain) if chain else Checkpoint(((0, 0),), (), (), 0, ())
    if not standing.awaiting and draws.chance(30):
        standing = dataclasses.replace(standing, awaiting=((b"c", 0, record.pid),))
    part = draws.one_of([Fresh(), Over(), Asking(1 + draws.below(4), draws.below(6), 0), standing])
    state = 1 + draws.below(6)
    return [Set(record.pid, state, {EXCEPTED: 1}.get(state, 0), draws.below(2), 0, 0, None, part)]


def miss_fails(draws, world):
    """A job that failed five times."""
    jobs = live(world, JOB)
    return [Set(draws.one_of(jobs).pid, WAITING, 0, draws.below(2), 0, 0, None, Asking(1, 5, 0))] if jobs else miss_state(draws, world)


def miss_checkpoint(draws, world):
    """A chain that stands where it can't."""
    chains = live(world, CHAIN)
    if not chains:
        return miss_state(draws, world)
    record = draws.one_of(chains)
    part = checkpoint(draws, world, record)
    blocks = plain.definition_of(world, record.made.library, record.made.definition, TEXTS)[1]
    block = draws.below(len(blocks))
    frame = draws.one_of([(len(blocks), 0), (2 ** 32 - 1, 0), (block, blocks[block] + 1), (block, blocks[block] + 1), (block, 2 ** 32 - 1)])
    child = draws.one_of([no_node(draws, world), draws.one_of(data_nodes(world) or [0])])
    part = draws.weighted([
        (2, dataclasses.replace(part, frames=())),
        (4, dataclasses.replace(part, frames=draws.one_of([(frame,), (*part.frames, frame), (frame, *part.frames)]))),
        (2, dataclasses.replace(part, context=part.context + ((b"one", ("one", child)),))),
        (2, dataclasses.replace(part, context=part.context + ((b"many", ("many", (record.pid, child))),))),
        (3, dataclasses.replace(part, awaiting=part.awaiting + ((b"c", 0, draws.one_of([child, draws.one_of(world.records).pid])),))),
        (2, dataclasses.replace(part, outputs=((b"z", no_node(draws, world)),))),
        (2, dataclasses.replace(part, outputs=((b"z", draws.one_of(world.records).pid),))),
        (2, dataclasses.replace(part, calls=draws.one_of([part.calls + 1, max(0, part.calls - 1), 2 ** 32 - 1]))), (4, part)])
    fitting = WAITING if part.awaiting else RUNNING
    return [Set(record.pid, another(draws, [WAITING, RUNNING], fitting) if draws.chance(25) else fitting, 0, 0, 0, 0, None, part)]


def miss_source(draws, world):
    """A Set with a source of any kind."""
    if not live(world):
        return miss_number(draws, world)
    record = draws.one_of(live(world))
    change = draws.one_of([standing_of, end_of])(draws, world, record)
    ended = [it.pid for it in world.records if it.has_ended()]
    sources = [any_node(draws, world), no_node(draws, world), record.pid, draws.one_of(world.records).pid, draws.one_of(ended or [1])]
    return [dataclasses.replace(change, source=draws.one_of(sources))]


def miss_outputs(draws, world):
    """An output of a process that goes on."""
    if not live(world):
        return miss_number(draws, world)
    record = draws.one_of(live(world))
    kind = RETURN if record.made.kind == CHAIN else CREATE
    return [Data(value(draws)), Link(record.pid, len(world.nodes) + 1, kind, draws.one_of(LABELS)), standing_of(draws, world, record)]


def miss_told(draws, world):
    """A Count or a Kept."""
    if draws.chance(50):
        return [Count(draws.one_of([world.batches, world.batches + 1, 2 ** 32 - 1]))]
    return [Kept(any_node(draws, world), draws.below(3), draws.below(3))]


def miss_bytes(draws, world):
    """A change that can't be read: names, keys or labels out of order, a value that is too deep, a text of no library, texts that are no UTF-8."""
    record = draws.one_of(live(world, CHAIN)) if live(world, CHAIN) else None
    pair = draws.one_of([(b"b", b"a"), (b"a", b"a"), (b"ab", b"a"), (b"a", b"")])
    changes = [Library(ADD, pair), Library(draws.one_of(WRONG), ()), Data(deep_value(draws, draws.one_of([33, 34]))),
               Data(("dict", tuple((key, ("int", 1)) for key in pair))), Data(("folder", tuple((key, b"") for key in pair))),
               Data(("text", draws.one_of([b"\xff", b"a\xc3", b"\xed\xa0\x80"]))), Process(FUNCTION, b"\x80", 1, 1, b"", 0),
               Data(("bool", 2)), Link(1, 1, draws.one_of([0, 7, 255]), b""), Set(1, WAITING, 0, 1, 0, 0, None, Asking(1, 6, 0)),
               Set(1, draws.one_of([0, 7]), 0, 0, 0, 0, None, Over()), Set(1, EXCEPTED, draws.one_of([0, 10]), 0, 0, 0, None, Over()),
               Set(1, draws.one_of([CREATED, KILLED]), 1, 0, 0, 0, None, Over()), Set(1, WAITING, 0, 0, 0, 0, None, Asking(draws.one_of([0, 5]), 0, 0)),
               Set(1, WAITING, 0, 0, 0, 0, None, Checkpoint((), (), ((b"c", 2, 1),), 0, ()))]
    if record:
        part = checkpoint(draws, world, record)
        changes += [Set(record.pid, RUNNING, 0, 0, 0, 0, None, dataclasses.replace(part, context=tuple((key, ("one", record.pid)) for key in (b"a", b"b", b"a")))),
                    Set(record.pid, RUNNING, 0, 0, 0, 0, None, dataclasses.replace(part, outputs=tuple((key, 1) for key in pair)))]
    return [draws.one_of(changes)]


MISSES = [(10, miss_process), (12, miss_ends), (18, miss_again), (10, miss_call), (8, miss_number), (14, miss_state), (4, miss_fails), (16, miss_checkpoint),
          (14, miss_source), (8, miss_outputs), (3, miss_told), (6, miss_bytes)]
