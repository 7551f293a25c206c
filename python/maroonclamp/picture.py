"""Where values came from: the nodes that lead to some, and their picture by Graphviz, where that is there."""
import shutil
import subprocess

from .values import as_json, cut, kind_of
from .world import Value

COLOURS = {"finished": "#cfe8cf", "failed": "#f7d9a8", "excepted": "#f2b8b5", "killed": "#cccccc"}
SIGNS = 32


def sources(world):
    """For each node those from which a link of data or a call leads to it."""
    found = {}
    for source, target, kind, _ in world.links:
        if kind in ("CREATE", "INPUT_CALC", "CALL_CALC", "CALL_WORK"):
            found.setdefault(target, []).append(source)
    return found


def leading_to(into, seeds, most=None):
    """The nodes that lead to these and they themselves, the nearest first, and whether some are left out."""
    kept, queue = dict.fromkeys(seeds), list(seeds)
    for node in queue:
        for source in into.get(node, ()):
            if source not in kept:
                if most and len(kept) >= most:
                    return list(kept), True
                kept[source] = None
                queue.append(source)
    return list(kept), False


def colour(it):
    """The colour of a process."""
    word = it.state.split()[0]
    return COLOURS.get("failed" if word == "finished" and it.now.status else word, "#ffffff")


def quoted(text):
    """A text as Graphviz takes it; a line feed breaks the line."""
    return '"' + text.replace("\\", "\\\\").replace('"', '\\"').replace("\n", "\\n") + '"'


def shown(it):
    """How a node is drawn."""
    if isinstance(it, Value):
        return "ellipse", "filled", "#fdf6e3", f"{it.number}\n{kind_of(it.value)} {cut(cut(as_json(it.value), 4 * SIGNS).encode('ascii', 'replace').decode(), SIGNS)}"
    return "box", "filled,rounded" if it.kind == "workchain" else "filled", colour(it), f"{it.number}\n{it.kind} {it.definition}\n{it.state}"


def dot_text(world, nodes, links):
    """The picture of these nodes, with those of the links that lie between them, as Graphviz takes it."""
    lines = ['digraph provenance {', '  rankdir=TB; node [fontname="sans-serif", fontsize=10]; edge [fontname="sans-serif", fontsize=8];']
    for number in sorted(nodes):
        shape, style, fill, text = shown(world.node(number))
        lines.append(f'  n{number} [shape={shape}, style="{style}", fillcolor="{fill}", label={quoted(text)}];')
    kept = set(nodes)
    for source, target, kind, label in links:
        if source in kept and target in kept:
            how = "style=dashed, " if kind.startswith("CALL") else "style=dotted, " if kind == "RETURN" else ""
            lines.append(f"  n{source} -> n{target} [{how}label={quoted(label)}];")
    return "\n".join([*lines, "}", ""])


def svgs(pictures, patience=60):
    """The pictures as SVG, one for each text; none where Graphviz isn't there, or takes more than so many seconds."""
    dot = shutil.which("dot")
    if not dot or not pictures:
        return []
    try:
        done = subprocess.run([dot, "-Tsvg"], input="".join(pictures).encode(), stdout=subprocess.PIPE, stderr=subprocess.DEVNULL, timeout=patience)
    except (OSError, subprocess.TimeoutExpired):
        return []
    found = [piece[piece.index("<svg") :] + "</svg>" for piece in done.stdout.decode("utf-8").split("</svg>") if "<svg" in piece]
    return found if len(found) == len(pictures) else []
