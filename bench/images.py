"""Stores written without the program, and commands timed on them, for the measurements beside this file."""
import os
import struct
import tempfile
import time

INPUT_CALC, CREATE, RETURN = 1, 3, 4
FUNCTION, JOB, CHAIN = 1, 2, 3
CREATED, WAITING, FINISHED = 1, 3, 4
UPDATE = 3


def text(content):
    return struct.pack(">I", len(content)) + content


def library(printed):
    return b"\x01" + text(printed) + struct.pack(">I", 0)


def number(value):
    """A data node that holds an Int."""
    return b"\x02\x01" + struct.pack(">q", value)


def process(kind, definition, library_number):
    return b"\x03" + struct.pack(">B", kind) + text(definition) + struct.pack(">II", library_number, 1) + text(b"") + b"\x00"


def link(source, target, kind, label):
    return b"\x04" + struct.pack(">IIB", source, target, kind) + text(label)


def standing(pid, state, part):
    """What a process is, with exit status 0, no marks, no source, no fuel and no exit code."""
    return b"\x05" + struct.pack(">IBIBIQ", pid, state, 0, 0, 0, 0) + b"\x00" + part


def kept(pid, started, ended):
    return b"\x07" + struct.pack(">III", pid, started, ended)


OVER, FRESH = b"\x03", b"\x00"


def waiting(due):
    """The part of a job that is asked again at a moment, in milliseconds."""
    return b"\x02" + struct.pack(">BBQ", UPDATE, 0, due)


def write_store(folder, changes, batches):
    """Writes the store that has these changes as its snapshot. Answers the snapshot's length."""
    changes = list(changes) + [b"\x06" + struct.pack(">I", batches)]
    payload = struct.pack(">I", len(changes)) + b"".join(changes)
    os.mkdir(os.path.join(folder, "wc.store"))
    with open(os.path.join(folder, "wc.store", "two"), "wb") as image:
        image.write(b"WCJNL\0\0\x02" + struct.pack(">Q", 2) + b"\x01\x02" + struct.pack(">Q", len(payload)) + payload + b"\x00")
    open(os.path.join(folder, "wc.store", "one"), "wb").close()
    return len(payload)


def write_journal(folder, batches):
    """Writes the store that was committed batch by batch, each a list of changes. Answers its length."""
    os.mkdir(os.path.join(folder, "wc.store"))
    with open(os.path.join(folder, "wc.store", "one"), "wb") as image:
        image.write(b"WCJNL\0\0\x02" + struct.pack(">Q", 1))
        for changes in batches:
            payload = struct.pack(">I", len(changes)) + b"".join(changes)
            image.write(b"\x01\x01" + struct.pack(">Q", len(payload)) + payload)
        image.write(b"\x00")
        size = image.tell()
    open(os.path.join(folder, "wc.store", "two"), "wb").close()
    return size


def timed(program, folder, words):
    """The status, the output, the seconds, the processor seconds and the most MiB of one command."""
    with tempfile.TemporaryFile() as out:
        start = time.monotonic()
        pid = os.fork()
        if pid == 0:
            os.chdir(folder)
            os.dup2(out.fileno(), 1)
            os.execv(program, [program] + words)
        _, status, usage = os.wait4(pid, 0)
        took = time.monotonic() - start
        out.seek(0)
        return os.waitstatus_to_exitcode(status), out.read(), took, usage.ru_utime + usage.ru_stime, usage.ru_maxrss / 1024
