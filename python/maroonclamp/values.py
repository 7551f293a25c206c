"""Values as Python's own, and their canonical bytes. `docs/FORMATS.md`, "Canonical bytes of values" and "Values as JSON", is the source of the rules."""
import collections.abc
import json
import os

from .errors import Unread

DEEPEST = 32


class Folder(collections.abc.Mapping):
    """A folder: a mapping from file names to bytes, that doesn't change."""

    def __init__(self, files=()):
        self._files = {name: data.encode("utf-8") if isinstance(data, str) else bytes(data) for name, data in dict(files).items()}

    def __getitem__(self, name):
        return self._files[name]

    def __iter__(self):
        return iter(self._files)

    def __len__(self):
        return len(self._files)

    def __hash__(self):
        return hash(frozenset(self._files.items()))

    def __repr__(self):
        return "Folder(" + ", ".join(f"{name}: {len(data)} bytes" for name, data in self._files.items()) + ")"

    def text(self, name):
        """A file as text: UTF-8, with a sign in place of what isn't."""
        return self._files[name].decode("utf-8", "replace")

    def write(self, path):
        """Writes the files into a folder, which is made where it isn't there. A name that leads out of the folder is a ValueError."""
        for name in self._files:
            if name in ("", ".", "..") or "/" in name or "\0" in name:
                raise ValueError(f"{name!r} is no name of a file")
        os.makedirs(path, exist_ok=True)
        for name, data in self._files.items():
            with open(os.path.join(path, name), "wb") as file:
                file.write(data)


def kind_of(value):
    """The kind of a value: int, bool, text, list, dict or folder."""
    for kind, form in (("bool", bool), ("int", int), ("text", str), ("list", (list, tuple)), ("folder", Folder), ("dict", dict)):
        if isinstance(value, form):
            return kind
    raise TypeError(f"{type(value).__name__} is no kind of value")


def as_plain(value):
    """A value as JSON has it: a folder is an object of strings, or of {"hex": ..} where a file isn't UTF-8; also a dictionary with bytes in it."""
    if isinstance(value, (bytes, bytearray)):
        try:
            return bytes(value).decode("utf-8")
        except UnicodeDecodeError:
            return {"hex": bytes(value).hex()}
    if isinstance(value, collections.abc.Mapping):
        return {key: as_plain(it) for key, it in value.items()}
    if isinstance(value, (list, tuple)):
        return [as_plain(it) for it in value]
    return value


def as_json(value):
    """A value as the program prints it."""
    return json.dumps(as_plain(value), ensure_ascii=False, separators=(",", ":"))


def cut(text, width):
    """A text of at most so many characters; 0 for no limit."""
    return text if not width or len(text) <= width else text[: max(width - 3, 0)] + "..."


class Cursor:
    """Reads bytes from left to right; the first thing that is wrong is an Unread with its offset."""

    def __init__(self, data):
        self.data, self.at = data, 0

    def take(self, count):
        """The next bytes."""
        end = self.at + count
        if end > len(self.data):
            raise Unread("truncated", len(self.data))
        found = self.data[self.at : end]
        self.at = end
        return found

    def number(self, count):
        """An unsigned number of so many bytes."""
        return int.from_bytes(self.take(count), "big")

    def byte(self, allowed):
        """A byte out of these."""
        found = self.take(1)[0]
        if found not in allowed:
            raise Unread("bad tag", self.at - 1)
        return found

    def text(self, before=None):
        """A text. Where one is told that stands before, it has to be greater, by bytes."""
        begin = self.at
        data = self.take(self.number(4))
        try:
            found = data.decode("utf-8")
        except UnicodeDecodeError:
            raise Unread("not utf-8", begin + 4) from None
        if before is not None and data <= before.encode("utf-8"):
            raise Unread("unsorted", begin)
        return found

    def pairs(self, content):
        """A count, and so many pairs of an ascending text and a content."""
        found, before = {}, None
        for _ in range(self.number(4)):
            before = self.text(before)
            found[before] = content()
        return found

    def value(self, depth=1):
        """A value."""
        tag = self.byte(range(1, 7))
        if depth > DEEPEST:
            raise Unread("too deep", self.at - 1)
        if tag == 1:
            return int.from_bytes(self.take(8), "big", signed=True)
        if tag == 2:
            return self.byte((0, 1)) == 1
        if tag == 3:
            return self.text()
        if tag == 4:
            return [self.value(depth + 1) for _ in range(self.number(4))]
        if tag == 5:
            return self.pairs(lambda: self.value(depth + 1))
        return Folder(self.pairs(lambda: self.take(self.number(4))))

    def finish(self):
        """Nothing stands behind."""
        if self.at < len(self.data):
            raise Unread("trailing", self.at)


def decode(data):
    """The value of canonical bytes; Unread where there is none."""
    cursor = Cursor(data)
    found = cursor.value()
    cursor.finish()
    return found
