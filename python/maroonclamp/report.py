"""How a process went: its state with the words of its exit code, the calls below it that failed or go on, and of a job what its folder tells."""
import os
import shlex
import time

from .errors import Unread
from .values import as_json, cut, decode, kind_of
from .world import TASKS


def content(process, name, limit=1 << 16):
    """The last bytes of a file of a job's folder as text, or None."""
    try:
        with open(os.path.join(process.folder, name), "rb") as it:
            it.seek(0, os.SEEK_END)
            it.seek(max(it.tell() - limit, 0))
            return it.read().decode("utf-8", "replace")
    except OSError:
        return None


def request(process):
    """The request of a job: a dictionary of program, args, files and fetch; None where its folder has none."""
    try:
        with open(os.path.join(process.folder, "_wc_request"), "rb") as it:
            found = decode(it.read())
    except (OSError, Unread):
        return None
    return found if isinstance(found, dict) and {"program", "args", "files", "fetch"} <= set(found) else None


def command(process):
    """The command of a job as the shell would take it, or None."""
    found = request(process)
    return found and " ".join(shlex.quote(word) for word in [found["program"], *found["args"]])


def job_lines(process, lines):
    """What is to be said of a job, as pairs of indentation and text."""
    told = command(process)
    if told:
        yield 0, f"command {told}"
    now = process._it.now
    if process.is_live and now.task:
        yield 0, f"task {TASKS[now.task]}" + (f", failed {now.fails} times in a row" if now.fails else "")
        if now.due and not process.paused:
            yield 0, f"next try {time.strftime('%Y-%m-%d %H:%M:%S', time.localtime(now.due / 1000))}"
    if process.code is not None:
        yield 0, f"exit code {process.code}" + (": there is no such program" if process.code == 127 else "")
    fault = content(process, "_wc_failed")
    if fault and (process.is_live or process.state == "killed"):
        yield 0, "last failure: " + fault.strip()
    for name in ("stderr.txt", "stdout.txt"):
        text = (content(process, name) or "").rstrip("\n")
        if text and lines:
            found = text.split("\n")
            yield 0, f"{name}, " + (f"last {lines} lines" if len(found) > lines else "whole")
            for line in found[-lines:]:
                yield 1, line


def own_lines(process):
    """What is to be said of a process itself."""
    for word, nodes in (("input", process.input_nodes), ("output", process.output_nodes)):
        for label, it in nodes.items():
            if label != "retrieved" or word == "input":
                yield f"{word} {label} {kind_of(it.value)} {as_json(it.value)}"
    if process.cached_from:
        yield f"took the outcome of {process.cached_from!r}"
    if process.state.startswith("excepted"):
        yield 'met a reason for which its definition has no answer ("Why a process excepted" in the guide)'


def of_process(process, lines=10, width=160, every=False):
    """The text of a report."""
    found = []
    stack = [(0, "", process)]
    while stack:
        depth, name, it = stack.pop()
        if isinstance(it, str):
            found.append((depth, it))
            continue
        message = it.exit_message
        found.append((depth, f"{name}{it.number} {it.kind} {it.definition} {it.state}" + (" paused" if it.paused else "") + (f": {message}" if message else "")))
        found += [(depth + 1, text) for text in own_lines(it)]
        if it.kind == "calcjob" and not it.cached_from:
            found += [(depth + 1 + further, text) for further, text in job_lines(it, lines)]
        shown = [called for called in it.calls if every or not called.is_well]
        well = len(it.calls) - len(shown)
        stack += [(depth + 1, f"calls that finished with 0: {well}", f"calls that finished with 0: {well}")] if well else []
        stack += [(depth + 1, f"call {called.label} ", called) for called in reversed(shown)]
    return "".join("  " * depth + cut(text, width) + "\n" for depth, text in found)
