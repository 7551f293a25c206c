"""The two files of a store, while a run goes on too, and which batches count. `docs/FORMATS.md`, "The image of a journal" and "Two disks", is the source of the rules.

A run only adds to the end of a file: a batch with a closed gate behind it, a sync, and then the byte that opens the gate before it. Each file is read from its front, so a gate is
read before its batch, and one that is read as open was opened after its whole batch was written. `pack` alone writes a file anew, under a header with a greater
generation: so both headers are read once more when both files are read, and where one isn't as it was, both are read again.
"""
import os

from .errors import Damaged, NoStore, Unavailable

MAGIC = b"WCJNL\0\0"
HEADER = 16
NAMES = ("one", "two")


def part_of(folder, name, begin=0, count=-1):
    """Bytes of a file of a store; none where the file isn't there."""
    try:
        with open(os.path.join(folder, "wc.store", name), "rb") as file:
            file.seek(begin)
            return file.read(count)
    except FileNotFoundError:
        return b""
    except OSError as error:
        raise Unavailable(str(error)) from error


def headers(folder):
    """The first bytes of both files."""
    return tuple(part_of(folder, name, 0, HEADER) for name in NAMES)


def images(folder):
    """The bytes of both files, as of one moment in the sense above."""
    if not os.path.isdir(os.path.join(folder, "wc.store")):
        raise NoStore(f"{folder} has no store")
    for _ in range(20):
        found = tuple(part_of(folder, name) for name in NAMES)
        if headers(folder) == tuple(it[:HEADER] for it in found):
            return found
    raise Unavailable("the store was packed during each of 20 looks")


def has_journal(image):
    """Whether an image is to be read as a journal."""
    return len(image) > 1 and image[:1] == MAGIC[:1]


class Journal:
    """A file that is a journal: its version and generation, and the batches that count. Of a file that was read before only what came behind is read."""

    def __init__(self, disk, image):
        self.disk, self.image, self.base, self.count = disk, image, 0, 0
        for at in range(min(len(image), len(MAGIC))):
            if image[at] != MAGIC[at]:
                self.damaged(at)
        self.need(len(MAGIC))
        if image[7] not in (1, 2):
            self.damaged(7)
        self.need(15)
        self.version, self.generation = image[7], int.from_bytes(image[8:16], "big")
        if self.generation == 0:
            self.damaged(15)
        self.need(HEADER)
        self.end = HEADER
        self.batches = list(self.found())

    def byte(self, at):
        """The byte at a place of the file, or None behind its end."""
        return self.image[at - self.base] if at - self.base < len(self.image) else None

    def damaged(self, at):
        """The file is damaged at this byte, or at its end."""
        raise Damaged(self.disk, at, self.byte(at))

    def need(self, at):
        """There has to be a byte here."""
        if self.byte(at) is None:
            self.damaged(self.base + len(self.image))

    def found(self):
        """The batches from the gate at `end` on, which is left at the first one that isn't open: pairs of a payload and its place."""
        self.need(self.end)
        while self.byte(self.end) == 1:
            at = self.end + 1
            if self.version == 2:
                self.need(at)
                if self.byte(at) != (2 if self.count == 0 and self.generation > 1 else 1):
                    self.damaged(at)
                at += 1
            width = 8 if self.version == 2 else 4
            self.need(at + width - 1)
            length = int.from_bytes(self.image[at - self.base : at - self.base + width], "big")
            at += width
            self.need(at + length)
            self.end, self.count = at + length, self.count + 1
            yield self.image[at - self.base : self.end - self.base], at

    def extend(self, tail):
        """Takes what stands in the file from the gate at `end` on: its new batches."""
        self.base, self.image = self.end, tail
        self.batches = list(self.found())


def chosen(found):
    """The journal that the store is on, of two images."""
    journals = [Journal(k + 1, image) if has_journal(image) else None for k, image in enumerate(found)]
    if journals == [None, None]:
        for k, image in enumerate(found):
            if len(image) > HEADER + 1:
                raise Damaged(k + 1, 0, image[0])
        raise NoStore("there is no store")
    if None not in journals and journals[0].generation == journals[1].generation:
        journals[1].damaged(15)
    journal = max((it for it in journals if it), key=lambda it: it.generation)
    if journal.generation > 1 and journal.count == 0:
        journal.damaged(HEADER)
    return journal
