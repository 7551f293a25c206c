"""The program, by which alone a store is changed."""
import json
import os
import shutil
import subprocess
import tempfile

from .errors import Damaged, Failed, NoProgram, NoStore, Refused, Unavailable
from .values import as_plain

HERE = os.path.dirname(os.path.realpath(__file__))


def found_program(named=None):
    """The program: the one that is named, that of the environment variable MAROONCLAMP, that of the repository or the archive in which this package lies, or one of the PATH."""
    beside = os.path.join(HERE, "..", "..", "maroonclamp")
    for name in (named, os.environ.get("MAROONCLAMP"), beside if os.path.isfile(beside) else None, shutil.which("maroonclamp")):
        if name:
            if not os.path.isfile(name) or not os.access(name, os.X_OK):
                raise NoProgram(f"there is no program {name}")
            return os.path.realpath(name)
    raise NoProgram("there is no program maroonclamp: name it by Store(path, program=..) or by the environment variable MAROONCLAMP")


def judged(status, text):
    """The text of a command that went well, without its line feed; else what went wrong, by its name."""
    text = text.rstrip("\n")
    if status == 0:
        return text
    if text == "refused: no store":
        raise NoStore(text)
    if status == 1:
        raise Refused(text[len("refused: ") :] if text.startswith("refused: ") else text)
    if status == 5:
        raise Unavailable("the program can't read, write or lock a file of the store: most often another command, as a run or a daemon, holds it")
    words = text.split()
    if status == 6 and len(words) >= 6:
        raise Damaged(int(words[2]), int(words[4]), None if words[5] == "end" else int(words[6]))
    raise Failed(status, text)


def call(program, folder, *words):
    """What a command prints that goes well."""
    try:
        done = subprocess.run([program, *words], cwd=folder, stdin=subprocess.DEVNULL, stdout=subprocess.PIPE)
    except OSError as error:
        raise NoProgram(str(error)) from error
    return judged(done.returncode, done.stdout.decode("utf-8", "replace"))


def submit(program, folder, file, name, inputs, settings):
    """Stores a process, and answers its number."""
    words = ["--settings=" + os.path.abspath(settings)] if settings else []
    with tempfile.TemporaryDirectory() as room:
        given = os.path.join(room, "inputs.json")
        with open(given, "w", encoding="utf-8") as it:
            json.dump(as_plain(inputs), it)
        text = call(program, folder, "submit", "--inputs=" + given, *words, "--", os.path.abspath(file), name)
    return int(text.split()[1])
