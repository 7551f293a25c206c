"""A store and its processes, as Python has them."""
import collections
import os
import subprocess
import sys
import time

from . import journal, program, report, texts
from .errors import Damaged, MaroonclampError, NoProgram, NoStore, Unknown, Unread
from .notebook import process_html, store_html
from .values import Folder, cut, kind_of
from .world import STATES, Misfit, ProcessNode, World

# How often files that make no store are looked at, since another command may be making or packing it, and the seconds between.
LOOKS, REST = 5, 0.1

Done = collections.namedtuple("Done", "committed live paused status")
Done.__doc__ = """What a run did: how many turns were committed, how many processes haven't ended, how many of these are paused, and the program's status: 0, 3 or 4."""


class Node:
    """A value of a store: its `number`, `kind` and `value`, and the `creator`, the process that made it, or None for one that was given."""

    def __init__(self, store, number):
        self.store, self.number = store, number

    @property
    def value(self):
        """The value, as Python's own."""
        return self.store._world.node(self.number).value

    @property
    def kind(self):
        """Its kind: int, bool, text, list, dict or folder."""
        return kind_of(self.value)

    @property
    def creator(self):
        """The process that made it, or None."""
        number = self.store._world.node(self.number).creator
        return number and Process(self.store, number)

    def __eq__(self, other):
        return type(self) is type(other) and (self.store, self.number) == (other.store, other.number)

    def __hash__(self):
        return hash((id(self.store), self.number))

    def __repr__(self):
        return f"<{self.number} {self.kind} {cut(texts.as_json(self.value), 60)}>"


class Process:
    """A process of a store. It shows what the store had when it was last looked at: each call of `Store.process`, `Store.processes` and `Store.refresh` looks anew."""

    def __init__(self, store, number):
        self.store, self.number = store, number

    @property
    def _it(self):
        return self.store._world.process(self.number)

    kind = property(lambda self: self._it.kind, doc="calcfunction, calcjob or workchain.")
    definition = property(lambda self: self._it.definition, doc="The name of its definition.")
    state = property(lambda self: self._it.state, doc="Its state, as `finished 0`, `excepted overflow` or `waiting`.")
    paused = property(lambda self: self._it.now.paused, doc="Whether it is marked as paused.")
    is_live = property(lambda self: self._it.is_live, doc="Whether it hasn't ended.")
    label = property(lambda self: self._it.label, doc="The label of the call that made it; empty for one that was submitted.")
    code = property(lambda self: self._it.now.code, doc="The exit code of a job's program, once it was brought back, or None.")
    exit_message = property(lambda self: self.store._world.exit_message(self._it), doc="What its definition says of the status with which it finished, or None.")
    source = property(lambda self: self.store._world.definition_text(self._it), doc="The stored text of its definition.")

    @property
    def exit_status(self):
        """The status with which it finished, or None."""
        return self._it.now.status if self._it.now.state == 4 else None

    @property
    def is_well(self):
        """Whether it finished with 0."""
        return self.exit_status == 0

    def _nodes(self, links):
        return {label: Node(self.store, number) for label, number in texts.by_bytes(links)}

    @property
    def input_nodes(self):
        """Its inputs as nodes, by their labels."""
        return self._nodes(self._it.inputs)

    @property
    def output_nodes(self):
        """Its outputs as nodes, by their labels."""
        return self._nodes(self._it.outputs)

    @property
    def inputs(self):
        """Its inputs as values, by their labels."""
        return {label: it.value for label, it in self.input_nodes.items()}

    @property
    def outputs(self):
        """Its outputs as values, by their labels."""
        return {label: it.value for label, it in self.output_nodes.items()}

    @property
    def calls(self):
        """The processes that it called, in order."""
        return [Process(self.store, number) for _, number in self._it.calls]

    @property
    def caller(self):
        """The process that called it, or None."""
        return self._it.caller and Process(self.store, self._it.caller)

    @property
    def cached_from(self):
        """The process whose outcome it took, or None."""
        return Process(self.store, self._it.now.source) if self._it.now.source else None

    @property
    def files(self):
        """The files that a job brought back, as they are in the store; an empty folder where there are none."""
        found = self.outputs.get("retrieved")
        return found if self.kind == "calcjob" and isinstance(found, Folder) else Folder()

    @property
    def folder(self):
        """The path of a job's folder, which may be gone."""
        return os.path.join(self.store.path, "wc.work", str(self.number))

    def report(self, lines=10, width=160, every=False):
        """How it went, down to the calls that failed or go on, or with `every` all: a text with at most so many last lines of what programs wrote."""
        return report.of_process(self, lines, width, every)

    def __eq__(self, other):
        return type(self) is type(other) and (self.store, self.number) == (other.store, other.number)

    def __hash__(self):
        return hash((id(self.store), self.number))

    def __repr__(self):
        return f"<{texts.head(self._it)}{' paused' if self.paused else ''}>"

    def _repr_html_(self):
        return process_html(self)


class Store:
    """The store of a folder. It is read from its files, so a run may go on meanwhile, and changed by the program alone."""

    def __init__(self, path=".", program=None):
        self.path, self._named = os.path.abspath(path), program
        self._world, self._journal, self._heads = None, None, None
        self.refresh()

    @classmethod
    def create(cls, path=".", program=None):
        """Makes a folder where it isn't there, and an empty store in it; Refused where there is one."""
        os.makedirs(path, exist_ok=True)
        _program(program)("init", path)
        return cls(path, program)

    # Reading.

    def refresh(self):
        """Looks at the files: takes what came since the last look, or reads all anew where the store was packed. Answers the store itself."""
        for left in reversed(range(LOOKS)):
            try:
                if self._journal is None or not self._go_on():
                    self._read()
                return self
            except (Damaged, NoStore):
                self._journal = None
                if not left or not os.path.isdir(os.path.join(self.path, "wc.store")):
                    raise
                time.sleep(REST)

    def _read(self):
        found = journal.images(self.path)
        chosen = journal.chosen(found)
        world = World()
        self._apply(world, chosen)
        self._world, self._journal, self._heads = world, chosen, tuple(it[: journal.HEADER] for it in found)

    def _go_on(self):
        chosen = self._journal
        if journal.headers(self.path) != self._heads:
            return False
        tail = journal.part_of(self.path, journal.NAMES[chosen.disk - 1], chosen.end)
        if journal.headers(self.path) != self._heads:
            return False
        chosen.extend(tail)
        self._apply(self._world, chosen)
        return True

    @staticmethod
    def _apply(world, chosen):
        for k, (payload, at) in enumerate(chosen.batches):
            is_snapshot = chosen.generation > 1 and chosen.count - len(chosen.batches) + k == 0
            try:
                world.apply(payload, is_snapshot)
            except Unread as refusal:
                chosen.damaged(at + refusal.at)
            except Misfit:
                chosen.damaged(at)
        chosen.base, chosen.image, chosen.batches = chosen.end, chosen.image[chosen.end - chosen.base :], []

    @property
    def processes(self):
        """All processes, by their numbers."""
        return [Process(self, it.number) for it in self.refresh()._world.processes()]

    def process(self, number):
        """A process by its number; Unknown where there is none."""
        if self.refresh()._world.process(number) is None:
            raise Unknown(f"unknown process {number}")
        return Process(self, number)

    def node(self, number):
        """A value or a process by its number; Unknown where there is none."""
        found = self.refresh()._world.node(number)
        if found is None:
            raise Unknown(f"unknown node {number}")
        return (Process if isinstance(found, ProcessNode) else Node)(self, number)

    def counts(self):
        """How many processes are in each state, by its word; `failed` are those that finished with another status than 0, and `paused` are counted beside their states."""
        found = collections.Counter()
        for it in self.refresh()._world.processes():
            found["failed" if it.now.state == 4 and it.now.status else STATES[it.now.state]] += 1
            found["paused"] += it.now.paused
        return {word: found[word] for word in (*STATES.values(), "failed", "paused") if found[word]}

    def text(self, command, number=None):
        """What the program prints for `list`, `graph`, `show` and `tree`."""
        if command == "tree":
            return texts.of_tree(self._world, self.process(number).number)
        if command == "show":
            return texts.of_show(self._world, self.node(number).number)
        return {"list": texts.of_list, "graph": texts.of_graph}[command](self.refresh()._world)

    # Changing, by the program.

    def _call(self, *words):
        text = program.call(program.found_program(self._named), self.path, *words)
        self.refresh()
        return text

    def submit(self, file, name, inputs=None, settings=None, **ports):
        """Stores a process of the definition `name` of a workflow file; its inputs come as a dictionary, or by name. Answers the process."""
        return self.process(program.submit(program.found_program(self._named), self.path, file, name, {**(inputs or {}), **ports}, settings))

    def pause(self, number):
        """Marks a process as paused."""
        self._call("pause", str(int(number)))

    def play(self, number):
        """Takes that mark away."""
        self._call("play", str(int(number)))

    def kill(self, number):
        """Ends a process with all that it called."""
        self._call("kill", str(int(number)))

    def pack(self):
        """Writes the store anew without the steps that led there, and answers the generation."""
        return int(self._call("pack").split()[1])

    def run(self, turns=None, seed=None, settings=None, progress=True, interval=0.5):
        """Lets the processes run, and answers what was done. `progress` is True for a line on stderr as counts change, or a function that is called with the counts.
        A break, as by ^C, ends the program as well, and loses nothing."""
        words = [f"--{name}={value}" for name, value in (("turns", turns), ("seed", seed)) if value is not None]
        words += [f"--settings={os.path.abspath(settings)}"] if settings else []
        try:
            going = subprocess.Popen([program.found_program(self._named), "run", *words], cwd=self.path, stdin=subprocess.DEVNULL, stdout=subprocess.PIPE)
        except OSError as error:
            raise NoProgram(str(error)) from error
        try:
            text = self._watched(going, _line if progress is True else progress or None, interval)
        finally:
            if going.poll() is None:
                going.terminate()
                going.wait()
            going.stdout.close()
        self.refresh()
        status = going.returncode
        if status not in (3, 4):
            text = program.judged(status, text)
        found = text.split()
        return Done(int(found[1]), int(found[3]), int(found[5]), status)

    def _watched(self, going, tell, interval):
        """Waits for a run, and tells the counts where they have changed."""
        before = None
        while True:
            try:
                text, _ = going.communicate(timeout=interval)
            except subprocess.TimeoutExpired:
                text = None
            if tell:
                try:
                    counts = self.counts()
                except MaroonclampError:
                    counts = before
                if counts is not None and counts != before:
                    tell(counts)
                before = counts
            if text is not None:
                return text.decode("utf-8", "replace")

    # For other programs.

    def rows(self, definition=None):
        """The processes, or those of a definition, as dictionaries: number, kind, definition, state, then `input.LABEL` and `output.LABEL`, and `retrieved` left out."""
        found = []
        for it in self.processes:
            if definition in (None, it.definition):
                row = {"number": it.number, "kind": it.kind, "definition": it.definition, "state": it.state}
                row.update((f"input.{label}", value) for label, value in it.inputs.items())
                row.update((f"output.{label}", value) for label, value in it.outputs.items() if label != "retrieved")
                found.append(row)
        return found

    def to_dataframe(self, definition=None):
        """The rows as a data frame, by their numbers. Needs pandas."""
        import pandas

        rows = self.rows(definition)
        columns = list(dict.fromkeys(["number", "kind", "definition", "state", *(name for row in rows for name in row)]))
        return pandas.DataFrame(rows, columns=columns, dtype=object).set_index("number")

    def to_networkx(self):
        """The provenance graph as a directed graph with numbers as nodes, and the link types and labels on its edges. Needs networkx."""
        import networkx

        graph = networkx.MultiDiGraph()
        for it in self.refresh()._world.nodes:
            if isinstance(it, ProcessNode):
                graph.add_node(it.number, kind=it.kind, definition=it.definition, state=it.state)
            else:
                graph.add_node(it.number, kind="data", value=it.value)
        for source, target, kind, label in self._world.links:
            graph.add_edge(source, target, type=kind, label=label)
        return graph

    def __repr__(self):
        return f"<Store {self.path}: " + (", ".join(f"{count} {word}" for word, count in self.counts().items()) or "empty") + ">"

    def _repr_html_(self):
        return store_html(self)


def _program(named):
    """A call of a command in a folder."""
    return lambda command, path: program.call(program.found_program(named), path, command)


def _line(counts):
    """A line of progress."""
    print("  ".join(f"{word} {count}" for word, count in counts.items()), file=sys.stderr, flush=True)
