"""What a notebook shows of a store and of a process."""
from html import escape

from .values import as_json, cut

MOST_ROWS, WIDTH = 50, 80


def row(cells, tag="td"):
    """A row of a table; cells are escaped."""
    return "<tr>" + "".join(f"<{tag}>{escape(str(it))}</{tag}>" for it in cells) + "</tr>"


def values(nodes):
    """Values by their labels, in one cell."""
    return cut(", ".join(f"{label}={cut(as_json(it.value), WIDTH)}" for label, it in nodes.items()), 3 * WIDTH)


def table(found):
    """Processes as a table."""
    rows = [row((it.number, it.kind, it.definition, it.state + (" paused" if it.paused else ""), values(it.input_nodes), values(it.output_nodes))) for it in found]
    return "<table>" + row(("number", "kind", "definition", "state", "inputs", "outputs"), "th") + "".join(rows) + "</table>"


def store_html(store):
    """A store: its counts, and its last processes that no process called."""
    found = [it for it in store.processes if it.caller is None]
    told = escape(", ".join(f"{count} {word}" for word, count in store.counts().items()) or "empty")
    left = f"<p>{len(found) - MOST_ROWS} earlier submissions aren't shown</p>" if len(found) > MOST_ROWS else ""
    return f"<p><b>{escape(store.path)}</b>: {told}</p>{left}" + table(found[-MOST_ROWS:])


def process_html(process):
    """A process, with what it called."""
    message = process.exit_message
    told = f"<p>{escape(message)}</p>" if message else ""
    called = process.calls
    left = f"<p>and {len(called) - MOST_ROWS} further calls</p>" if len(called) > MOST_ROWS else ""
    return table([process]) + told + (f"<p>calls</p>{table(called[:MOST_ROWS])}{left}" if called else "")
