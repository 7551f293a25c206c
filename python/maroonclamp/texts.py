"""The texts of `list`, `show`, `tree` and `graph` as the program prints them. `docs/FORMATS.md`, "Texts", is the source of the rules."""
from .values import as_json, kind_of
from .world import Value


def by_bytes(links):
    """Links in the order of the bytes of their labels."""
    return sorted(links, key=lambda it: it[0].encode("utf-8"))


def of_value(value):
    """A value with its kind."""
    return f"{kind_of(value)} {as_json(value)}"


def head(it):
    """The number, kind, definition and state of a process."""
    return f"{it.number} {it.kind} {it.definition} {it.state}"


def of_list(world):
    """The text of `list`."""
    return "".join(head(it) + (" paused" if it.now.paused else "") + "\n" for it in world.processes())


def of_show(world, number):
    """The text of `show` of a node that is there."""
    it = world.node(number)
    if isinstance(it, Value):
        return f"{number} data {of_value(it.value)}\ncreator {it.creator or 'none'}\n"
    lines = [head(it), f"paused {'yes' if it.now.paused else 'no'}", f"caller {it.caller or 'none'}", f"cached_from {it.now.source or 'none'}"]
    lines += [f"input {label} {node}" for label, node in by_bytes(it.inputs)]
    lines += [f"output {label} {node}" for label, node in by_bytes(it.outputs)]
    lines += [f"called {label} {node}" for label, node in it.calls]
    return "\n".join(lines) + "\n"


def of_tree(world, number):
    """The text of `tree` of a process that is there."""
    it = world.process(number)
    return "\n".join([it.state, *below(world, it, "")]) + "\n"


def below(world, it, indent):
    """The lines of a tree behind its state."""
    for label, node in by_bytes(it.outputs):
        yield f"{indent}{label} {of_value(world.node(node).value)}"
    for label, node in it.calls:
        called = world.process(node)
        yield f"{indent}call {label} {called.definition} {called.state}"
        yield from below(world, called, indent + "  ")


def of_graph(world):
    """The text of `graph`."""
    lines = []
    for it in world.nodes:
        lines.append(f"node {it.number} data {of_value(it.value)}" if isinstance(it, Value) else f"node {it.number} {it.kind} {it.definition}")
    lines += [f"link {source} {target} {kind} {label}" for source, target, kind, label in world.links]
    return "".join(line + "\n" for line in lines)
