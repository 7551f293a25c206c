"""Reads the store of a folder from its two files, as docs/FORMATS.md has them. Part of the tools; nothing here is
proved.

A copy is taken by the rule of tools/peek: each file from its front, and both again where a header isn't as it
was read. So a run may go on. Python 3.9 or later. The tools that stand on it tell numbers, states and texts as
the program does, and leave the judging of a store that isn't as the formats say to it.
"""
import json
import os
import re
import subprocess
import sys
import time

HERE = os.path.dirname(os.path.realpath(__file__))
KINDS = {1: "calcfunction", 2: "calcjob", 3: "workchain"}
STATES = {1: "created", 2: "running", 3: "waiting", 4: "finished", 5: "excepted", 6: "killed"}
REASONS = ["", "overflow", "division by zero", "missing key", "wrong kind", "no such output", "bad text", "too long", "depth", "bad input"]
LINKS = ["", "INPUT_CALC", "INPUT_WORK", "CREATE", "RETURN", "CALL_CALC", "CALL_WORK"]
TASKS = ["", "upload", "submit", "update", "retrieve"]


class Damaged(Exception):
    """The files aren't as the formats say: the program tells what is wrong."""


class Refused(Exception):
    """What the program refuses as well, with its text."""


class Bytes:
    """A cursor over bytes."""

    def __init__(self, data, at=0):
        self.data, self.at = data, at

    def take(self, count):
        """The next bytes."""
        if self.at + count > len(self.data):
            raise Damaged("truncated")
        self.at += count
        return self.data[self.at - count : self.at]

    def number(self, count):
        """An unsigned number of so many bytes."""
        return int.from_bytes(self.take(count), "big")

    def text(self):
        """A text: its length, and UTF-8."""
        return self.take(self.number(4)).decode("utf-8")

    def value(self):
        """A value, as kind and content: a number, a truth, a string, a list or a dictionary of values, or a folder of bytes."""
        tag = self.number(1)
        if tag == 1:
            return "int", int.from_bytes(self.take(8), "big", signed=True)
        if tag == 2:
            return "bool", self.number(1) == 1
        if tag == 3:
            return "text", self.text()
        if tag == 4:
            return "list", [self.value() for _ in range(self.number(4))]
        if tag == 5:
            return "dict", {self.text(): self.value() for _ in range(self.number(4))}
        if tag == 6:
            return "folder", {self.text(): self.take(self.number(4)) for _ in range(self.number(4))}
        raise Damaged("tag")


def plain(value):
    """A value as Python's own: a folder is a dictionary of strings, and of {"hex": ..} where a file isn't UTF-8."""
    kind, content = value
    if kind == "list":
        return [plain(it) for it in content]
    if kind == "dict":
        return {key: plain(it) for key, it in content.items()}
    if kind != "folder":
        return content
    files = {}
    for name, data in content.items():
        try:
            files[name] = data.decode("utf-8")
        except UnicodeDecodeError:
            files[name] = {"hex": data.hex()}
    return files


def as_json(value):
    """A value as the program prints it."""
    return json.dumps(plain(value), ensure_ascii=False, separators=(",", ":"))


def cut(text, width):
    """A text of at most so many characters; 0 for no limit."""
    return text if not width or len(text) <= width else text[: max(width - 3, 0)] + "..."


class Node:
    """A node: a value, or a process with all that is known of it. Batches are counted from 1, and 0 stands for one that isn't known."""

    def __init__(self, number, batch):
        self.number, self.batch = number, batch
        self.value = None
        self.creator = None

    @property
    def is_data(self):
        """Whether it is a value."""
        return self.value is not None


class Process(Node):
    """A process."""

    def __init__(self, number, batch, kind, definition, library, depth, label, caching):
        super().__init__(number, batch)
        self.kind, self.definition, self.library, self.depth = KINDS[kind], definition, library, depth
        self.label, self.caching = label, caching
        self.state_number, self.status, self.paused, self.source, self.fuel, self.code = 1, 0, False, 0, 0, None
        self.part, self.task, self.fails, self.due, self.awaited = "not started", 0, 0, 0, []
        self.started = self.ended = 0
        self.inputs, self.outputs, self.calls, self.caller = [], [], [], None

    @property
    def state(self):
        """Its state as the program prints it."""
        word = STATES[self.state_number]
        if word == "finished":
            return f"finished {self.status}"
        return f"excepted {REASONS[self.status]}" if word == "excepted" else word

    @property
    def is_live(self):
        """Whether it hasn't ended."""
        return self.state_number < 4

    @property
    def is_well(self):
        """Whether it finished with 0."""
        return self.state_number == 4 and self.status == 0

    @property
    def line(self):
        """Its line of `list`."""
        return f"{self.number} {self.kind} {self.definition} {self.state}" + (" paused" if self.paused else "")


class World:
    """What a store holds, at its last batch or at an earlier one."""

    def __init__(self):
        self.nodes, self.libraries, self.batches, self.packed = [], [], 0, 0
        self.generation = 0

    def node(self, number):
        """A node by its number."""
        if not 1 <= number <= len(self.nodes):
            raise Refused(f"unknown node {number}")
        return self.nodes[number - 1]

    def process(self, number):
        """A process by its number."""
        if not 1 <= number <= len(self.nodes) or self.nodes[number - 1].is_data:
            raise Refused(f"unknown process {number}")
        return self.nodes[number - 1]

    def processes(self):
        """All processes, by their numbers."""
        return [it for it in self.nodes if not it.is_data]

    def value(self, number):
        """The value of a data node."""
        return self.nodes[number - 1].value

    def definition(self, process):
        """The stored text of a process's definition."""
        text = self.libraries[process.library - 1]
        found = re.search(rf"^{process.kind} {re.escape(process.definition)}\(.*?^}}$", text, re.M | re.S)
        return found.group(0) if found else ""

    def exit_message(self, process):
        """What the definition says of the status with which a process finished; nothing where it declares none."""
        if process.state_number != 4 or process.status == 0:
            return None
        if process.status == 11:
            return "a required output was not set"
        found = re.search(rf'^  exit_code {process.status} ("(?:[^"\\]|\\.)*")', self.definition(process), re.M)
        return read_text(found.group(1)) if found else None

    def apply(self, data):
        """Applies the changes of one batch."""
        self.batches += 1
        batch = self.batches
        cursor = Bytes(data)
        for _ in range(cursor.number(4)):
            tag = cursor.number(1)
            if tag == 1:
                self.libraries.append(cursor.text())
                for _ in range(cursor.number(4)):
                    cursor.text()
            elif tag == 2:
                node = Node(len(self.nodes) + 1, batch)
                node.value = cursor.value()
                self.nodes.append(node)
            elif tag == 3:
                words = cursor.number(1), cursor.text(), cursor.number(4), cursor.number(4), cursor.text(), cursor.number(1)
                self.nodes.append(Process(len(self.nodes) + 1, batch, *words))
            elif tag == 4:
                self.link(cursor)
            elif tag == 5:
                self.set(cursor, batch)
            elif tag == 6:
                self.batches = self.packed = cursor.number(4)
                for node in self.nodes:
                    node.batch = 0
            elif tag == 7:
                node = self.made(cursor.number(4))
                node.started, node.ended = cursor.number(4), cursor.number(4)
            else:
                raise Damaged("change")

    def made(self, number):
        """A process that a change names."""
        if not 1 <= number <= len(self.nodes) or self.nodes[number - 1].is_data:
            raise Damaged("process")
        return self.nodes[number - 1]

    def link(self, cursor):
        """Adds a link."""
        source, target, kind, label = cursor.number(4), cursor.number(4), LINKS[cursor.number(1)], cursor.text()
        if not (1 <= source <= len(self.nodes) and 1 <= target <= len(self.nodes)):
            raise Damaged("link")
        if kind.startswith("INPUT"):
            self.made(target).inputs.append((label, source))
        elif kind.startswith("CALL"):
            self.made(source).calls.append((label, target))
            self.made(target).caller = source
        else:
            self.made(source).outputs.append((label, target))
            if kind == "CREATE":
                self.nodes[target - 1].creator = source

    def set(self, cursor, batch):
        """Takes what a process is from now on."""
        it = self.made(cursor.number(4))
        before = it.state_number
        it.state_number, it.status, it.paused = cursor.number(1), cursor.number(4), cursor.number(1) == 1
        it.source, it.fuel = cursor.number(4), cursor.number(8)
        it.code = int.from_bytes(cursor.take(8), "big", signed=True) if cursor.number(1) else None
        if before == 1 and it.state_number not in (1, 6):
            it.started = batch
        if before < 4 <= it.state_number:
            it.ended = batch
            it.started = it.started or (batch if it.state_number != 6 else 0)
        part = cursor.number(1)
        it.task = it.fails = it.due = 0
        it.awaited = []
        if part == 2:
            it.task, it.fails, it.due = cursor.number(1), cursor.number(1), cursor.number(8)
        elif part == 1:
            self.checkpoint(cursor, it)

    def checkpoint(self, cursor, it):
        """Passes over the checkpoint of a chain, of which the awaited processes are kept."""
        for _ in range(cursor.number(4)):
            cursor.take(8)
        for _ in range(cursor.number(4)):
            cursor.text()
            tag = cursor.number(1)
            if tag == 1:
                cursor.value()
            elif tag == 2:
                cursor.take(4)
            else:
                cursor.take(4 * cursor.number(4))
        for _ in range(cursor.number(4)):
            key = cursor.text()
            cursor.take(1)
            it.awaited.append((key, cursor.number(4)))
        cursor.take(4)
        for _ in range(cursor.number(4)):
            cursor.text()
            cursor.take(4)


def read_text(text):
    """A text in quotes of a workflow file."""
    escapes = {"n": "\n", "t": "\t"}
    return re.sub(r"\\(.)", lambda found: escapes.get(found.group(1), found.group(1)), text[1:-1])


def images(folder):
    """The bytes of both files, as of one moment in the sense of tools/peek."""
    names = [f"{folder}/wc.store/one", f"{folder}/wc.store/two"]
    if not os.path.isdir(f"{folder}/wc.store"):
        raise Refused("no store")
    for _ in range(20):
        found = []
        for name in names:
            try:
                with open(name, "rb") as it:
                    found.append(it.read())
            except FileNotFoundError:
                found.append(b"")
        for name, data in zip(names, found):
            try:
                with open(name, "rb") as it:
                    if it.read(16) != data[:16]:
                        break
            except FileNotFoundError:
                if data:
                    break
        else:
            return found
    raise OSError("the store was packed during each of 20 copies")


def generation_of(image):
    """The generation of an image's journal, or 0 where there is none."""
    return int.from_bytes(image[8:16], "big") if len(image) > 16 and image[:1] == b"\x57" else 0


def batches_of(image):
    """The payloads of an image, with the place of the gate behind each."""
    version, at = image[7], 16
    if image[:7] != b"\x57\x43\x4a\x4e\x4c\0\0" or version not in (1, 2):
        raise Damaged("header")
    if generation_of(image) > 1 and image[16] != 1:
        raise Damaged("no snapshot")
    while at < len(image) and image[at] == 1:
        head = at + (10 if version == 2 else 5)
        length = int.from_bytes(image[at + (2 if version == 2 else 1) : head], "big")
        at = head + length
        if at >= len(image):
            raise Damaged("batch")
        yield image[head:at], at


def chosen(found):
    """Which of two images the store is on, from 0."""
    first, second = generation_of(found[0]), generation_of(found[1])
    if first == second:
        raise Damaged("no store, or two of one generation")
    return 1 if second > first else 0


def world_of(image, at=None):
    """The world of an image, behind batch `at` where one is given."""
    world = World()
    world.generation = generation_of(image)
    for payload, _ in batches_of(image):
        if at is not None and world.batches >= at:
            break
        world.apply(payload)
    for it in world.processes():
        it.inputs.sort(key=lambda pair: pair[0].encode())
        it.outputs.sort(key=lambda pair: pair[0].encode())
    return world


def patiently(work):
    """What work on a copy of the files gives: done again where they make no store, since another command may be making or packing it."""
    for left in (4, 3, 2, 1, 0):
        try:
            return work()
        except (Damaged, IndexError, KeyError, UnicodeDecodeError, RecursionError):
            if not left:
                raise Damaged("store") from None
            time.sleep(0.5)
    raise Damaged("store")


def read(folder="."):
    """The world of the store of a folder."""

    def work():
        found = images(folder)
        return world_of(found[chosen(found)])

    return patiently(work)


def read_with_past(folder="."):
    """The world of the store of a folder, in which nodes know their batches also from before the last pack, where the other file tells."""

    def work():
        found = images(folder)
        disk = chosen(found)
        world = world_of(found[disk])
        if world.packed and generation_of(found[1 - disk]) + 1 == world.generation:
            try:
                before = world_of(found[1 - disk])
            except Damaged:
                return world
            if before.batches == world.packed:
                for node, old in zip(world.nodes, before.nodes):
                    node.batch = node.batch or old.batch
        return world

    return patiently(work)


def image_at(folder, at):
    """The image of a store as it stood behind a batch: the file's bytes up to the gate behind it, and that gate closed."""

    def work():
        found = images(folder)
        disk = chosen(found)
        reach = []
        for image in (found[disk], found[1 - disk]):
            if not generation_of(image):
                continue
            world, count, packed = generation_of(image), 0, 0
            gates = {}
            for k, (payload, gate) in enumerate(batches_of(image)):
                if k == 0 and world > 1:
                    count = packed = int.from_bytes(payload[-4:], "big")
                else:
                    count += 1
                gates[count] = gate
            if world == 1:
                gates[0] = 16
            if at in gates:
                return image[: gates[at]] + b"\0"
            reach += gates
        raise Refused(f"unknown batch {at}: the files tell of {min(reach)} to {max(reach)}")

    return patiently(work)


def program():
    """The program, or the one that the environment names."""
    return os.environ.get("MAROONCLAMP") or os.path.join(os.path.dirname(HERE), "maroonclamp")


def peek(*words):
    """What tools/peek gives: status and text."""
    done = subprocess.run([f"{HERE}/peek", *words], stdout=subprocess.PIPE, stderr=subprocess.DEVNULL)
    return done.returncode, done.stdout.decode("utf-8", "replace")


def main(run):
    """Runs a tool and ends with the program's statuses: what can't be read is left to the program to judge."""
    sys.stdout.reconfigure(encoding="utf-8", errors="replace")
    try:
        status = run() or 0
        sys.stdout.flush()
    except Refused as refused:
        print(f"refused: {refused}")
        status = 1
    except (Damaged, KeyError, IndexError, ValueError, RecursionError):
        status, text = peek("list")
        print(text if status else "the store can't be read", end="" if status else "\n")
        status = status or 6
    except BrokenPipeError:
        os.dup2(os.open(os.devnull, os.O_WRONLY), 1)
        status = 8
    except MemoryError:
        status = 2
    except KeyboardInterrupt:
        status = 130
    except OSError as error:
        print(f"tools/{os.path.basename(sys.argv[0])}: {error}", file=sys.stderr)
        status = 8 if error.errno == 28 else 5
    sys.exit(status)


def cut_copy():
    """Words: a batch and a folder. Puts the store as it stood behind this batch into the folder; called by tools/peek."""
    at, room = sys.argv[1:]
    with open(f"{room}/one", "wb") as it:
        it.write(image_at(".", int(at)))


if __name__ == "__main__":
    main(cut_copy)
