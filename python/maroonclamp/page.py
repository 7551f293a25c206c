"""A store as one page of HTML that needs no network: a summary, a table of the processes, each with its report, and where each value came from."""
import collections
import json
import os
import time

from . import picture, report, texts
from .store import Process
from .values import Folder, as_json, kind_of
from .world import Value

MOST_IN_PICTURE, LONG_STORE = 120, 5000


def text_of(text, width):
    """A text of at most so many characters, with its whole length where it was cut."""
    return [text] if len(text) <= width else [text[:width], len(text)]


def file_of(name, data, width):
    """A file of a folder: its name, its length, and its text with its whole length where it was cut; no text where it isn't UTF-8."""
    try:
        return [name, len(data), *text_of(data.decode("utf-8"), width)]
    except UnicodeDecodeError:
        return [name, len(data)]


def value_of(it, width):
    """A value as the page has it: kind, creator, and its text or its files."""
    if isinstance(it.value, Folder):
        return {"k": "folder", "by": it.creator or 0, "files": [file_of(name, data, width) for name, data in it.value.items()]}
    return {"k": kind_of(it.value), "by": it.creator or 0, "t": text_of(as_json(it.value), width)}


def process_of(store, it, width):
    """A process as the page has it; what is empty is left out."""
    process = Process(store, it.number)
    found = {"k": it.kind, "d": it.definition, "s": it.state, "i": texts.by_bytes(it.inputs), "o": texts.by_bytes(it.outputs), "c": it.calls}
    further = {"p": it.now.paused, "up": it.caller, "from": it.now.source, "m": process.exit_message}
    if it.kind == "calcjob" and not it.now.source:
        further["j"] = "".join("  " * depth + line[:width] + "\n" for depth, line in report.job_lines(process, 10))
    found.update((key, value) for key, value in further.items() if value)
    return found


def pictures_of(world, most):
    """The pictures of the results of the first submissions, by the number of the process."""
    into, between = picture.sources(world), collections.defaultdict(list)
    for link in world.links:
        between[link[0]].append(link)
    wanted = {}
    for it in world.processes():
        seeds = [number for label, number in it.outputs if label != "retrieved"]
        if it.caller is None and seeds and len(wanted) < most:
            nodes, is_cut = picture.leading_to(into, seeds, MOST_IN_PICTURE)
            if not is_cut:
                wanted[it.number] = picture.dot_text(world, nodes, [link for node in nodes for link in between[node]])
    return dict(zip(wanted, picture.svgs(list(wanted.values()))))


def page(store, width=None, pictures=40):
    """The page of a store. Values are cut at `width` characters, by default 4000, or 400 in a long store, and so many submissions have their pictures by Graphviz, where that is
    there; the others are drawn by the page itself."""
    world = store.refresh()._world
    width = width or (4000 if len(world.nodes) <= LONG_STORE else 400)
    data = {
        "name": os.path.basename(store.path),
        "made": time.strftime("%Y-%m-%d %H:%M"),
        "counts": store.counts(),
        "nodes": [value_of(it, width) if isinstance(it, Value) else process_of(store, it, width) for it in world.nodes],
        "pictures": pictures_of(world, pictures),
        "libraries": len(world.libraries),
    }
    with open(os.path.join(os.path.dirname(os.path.realpath(__file__)), "page.html"), encoding="utf-8") as file:
        form = file.read()
    told = json.dumps(data, ensure_ascii=False, separators=(",", ":")).replace("<", "\\u003c").replace("\u2028", "\\u2028").replace("\u2029", "\\u2029")
    before, _, behind = form.partition("@DATA@")
    return before + told.encode("utf-8", "replace").decode("utf-8") + behind
