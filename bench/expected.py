"""What the words of a query, and the file of a restart chain, are answered with: computed once more from docs/GUIDE.md and docs/FORMATS.md.

`bench/strangers` compares the program with it. Nothing here is taken from the program's sources. The program reads TOML of version 1.1, with values
and keys nested at most 80 deep, and Python's reader that of 1.0: where a file may be one of the first and none of the second nothing is expected.
"""
import math
import re

try:
    import tomllib
except ImportError:
    # Before Python 3.11.
    tomllib = None

KINDS = "any data process int bool text list dict folder calcfunction calcjob workchain".split()
STATES = "created running waiting finished excepted killed".split()
TYPES = "INPUT_CALC INPUT_WORK CREATE RETURN CALL_CALC CALL_WORK".split()
FIELDS = ["name", "state", "id", "status", "value"]
# The words that no name may be.
RESERVED = set(("calcfunction calcjob workchain exit_code invalidates program arg file fetch parse let out exit if step elif else while return ctx call to append "
                "int bool text list dict folder or and not true false inputs trim len get has line contains min max given count outputs status ok").split())


# Queries.

def is_number(text):
    """A whole number of 64 bits: digits, with `-` in front of them or not."""
    digits = text[1:] if text.startswith("-") else text
    return digits.isascii() and digits.isdigit() and -2 ** 63 <= int(text) < 2 ** 63


def is_filter(text):
    """A field, a comparison and what it is compared with."""
    for field in FIELDS:
        if text.startswith(field):
            for sign in ("!=", "=", "<", ">"):
                rest = text[len(field):]
                if rest.startswith(sign):
                    operand = rest[len(sign):]
                    if field in ("name", "state"):
                        return sign in ("=", "!=") and (field == "name" or operand in STATES)
                    return is_number(operand)
    return False


def is_node(word):
    """A kind and filters."""
    kind, *filters = word.split(",")
    return kind in KINDS and all(is_filter(it) for it in filters)


def is_link(word):
    """A way, types, and a `*` or none."""
    return word[:1] in ("<", ">") and all(it in TYPES for it in (word[1:-1] if word.endswith("*") and len(word) > 1 else word[1:]).split(","))


def query_refusal(words):
    """The refusal of a query of these words, or None."""
    if len(words) % 2 == 0:
        return "query shape"
    if len(words) > 15:
        return "query too long"
    for at, word in enumerate(words):
        if not (is_link if at % 2 else is_node)(word):
            return f"query word {at}"
    return None


# Restart chains. A library is its printed text, with the jobs and the functions that it has: per name the inputs and the outputs, each a list of
# (name, kind, optional).

def is_name(text):
    """A name of a definition."""
    return isinstance(text, str) and 1 <= len(text) <= 64 and text.isascii() and (text[0].isalpha() or text[0] == "_") and \
        all(it.isalnum() or it == "_" for it in text) and text not in RESERVED


def is_within(value, least, most):
    """A whole number from the least to the most."""
    return isinstance(value, int) and not isinstance(value, bool) and least <= value <= most


def refusals_of(table, prefix, keys, needed):
    """What is wrong with the keys of a table: pairs of the key's path and 0 for one that isn't known, 1 for a bad value."""
    found = []
    for key, value in table.items():
        if key not in keys:
            found.append((prefix + key, 0))
        elif not keys[key](value):
            found.append((prefix + key, 1))
    return found + [(prefix + key, 1) for key in needed if key not in table]


TOP = {"name": is_name, "of": is_name, "max": lambda it: is_within(it, 1, 5),
       "handler": lambda it: isinstance(it, list) and len(it) <= 16 and all(isinstance(one, dict) for one in it)}
HANDLER = {"statuses": lambda it: isinstance(it, list) and 1 <= len(it) <= 16 and all(is_within(one, 1, 9999) for one in it),
           "priority": lambda it: is_within(it, 0, 1000), "call": is_name, "abort": lambda it: is_within(it, 100, 9999) and it not in (401, 402)}


class Unknown(Exception):
    """Nothing is expected of a file."""


# What version 1.1 has and version 1.0 has not: lines and a last comma within a table in braces, two escapes, moments without seconds; and leap seconds,
# the year 0 and a mark of UTF-8 in front.
NEWER = re.compile(rb"\{|\\[ex]|\d\d:\d\d|0000-|\xef\xbb\xbf")


def is_wide(value):
    """Whether a whole number past 64 bits stands in a value. Unknown where a number with a point has no end."""
    if isinstance(value, dict):
        return any([is_wide(it) for it in value.values()])
    if isinstance(value, list):
        return any([is_wide(it) for it in value])
    if isinstance(value, float) and math.isinf(value):
        raise Unknown
    return isinstance(value, int) and not -2 ** 63 <= value < 2 ** 63


def read(data):
    """The table of a file, or None where it is no TOML. Unknown where that isn't known here."""
    if tomllib is None or max(map(data.count, (b"[", b"{", b"."))) > 70:
        raise Unknown
    try:
        table = tomllib.loads(data.decode("utf-8"))
    except ValueError as error:
        if NEWER.search(data):
            raise Unknown from error
        return None
    return None if is_wide(table) else table


def fits(function, ports):
    """Whether a function takes and gives what a job asks for."""
    inputs, outputs = function
    needed = [(name, kind) for name, kind, optional in outputs if not optional]
    asked = [(name, kind) for name, kind in ports]
    return all((name, kind) in asked for name, kind, _ in inputs) and sorted(needed) == sorted(asked)


def spec_refusal(data, library):
    """The refusal of a spec file for a library, or its spec."""
    table = read(data)
    if table is None:
        return "restart not toml", None
    found = refusals_of(table, "", TOP, ["name", "of"])
    handlers = table.get("handler")
    for one in handlers if isinstance(handlers, list) else []:
        if isinstance(one, dict):
            found += refusals_of(one, "handler.", HANDLER, ["statuses", "priority"])
            if ("call" in one) == ("abort" in one):
                found.append(("handler.abort", 1))
    if found:
        path, how = min(found, key=lambda it: (it[0].encode("utf-8"), it[1]))
        return f"restart {('unknown key', 'bad value')[how]} {path}", None
    handlers = handlers or []
    jobs, functions, names = library["jobs"], library["functions"], library["names"]
    if table["of"] not in jobs:
        return f"restart unknown name {table['of']}", None
    for one in handlers:
        if "call" in one and one["call"] not in functions:
            return f"restart unknown name {one['call']}", None
    if table["name"] in names:
        return f"restart name taken {table['name']}", None
    ports = [(name, kind) for name, kind, optional in jobs[table["of"]][0] if not optional]
    for one in handlers:
        if "call" in one and not fits(functions[one["call"]], ports):
            return f"restart bad ports {one['call']}", None
    before = set()
    for one in handlers:
        if one["priority"] in before:
            return f"restart same priority {one['priority']}", None
        before.add(one["priority"])
    if len(names) >= 64:
        return "restart too many", None
    return None, table


def lines_of_handler(one, ports):
    """The block of a handler, four braces deep."""
    if "abort" in one:
        return ["        step stop {", f"          exit {one['abort']};", "        }"]
    first = ", ".join(f"{name}: inputs.{name}" for name in ports)
    later = ", ".join(f"{name}: ctx.fix.outputs.{name}" for name in ports)
    return ["        if ctx.fresh {", "          step mend {", f"            call {one['call']}({first}) to ctx.fix;", "          }", "        } else {",
            "          step remend {", f"            call {one['call']}({later}) to ctx.fix;", "          }", "        }",
            "        step mended {", "          ctx.fresh = false;", "          ctx.bad = false;", "        }"]


def asked(statuses):
    """The condition of a handler."""
    condition = f"(ctx.job.status == {statuses[0]})"
    for status in statuses[1:]:
        condition = f"({condition} or (ctx.job.status == {status}))"
    return condition


def chain_of(table, library):
    """The printed chain of a spec."""
    job = table["of"]
    inputs, outputs = ([(name, kind) for name, kind, optional in ports if not optional] for ports in library["jobs"][job])
    handlers = sorted(table.get("handler", []), key=lambda it: -it["priority"])
    head = ", ".join(f"{name}: {kind}" for name, kind in inputs), ", ".join(f"{name}: {kind}" for name, kind in outputs)
    lines = [f"workchain {table['name']}({head[0]}) -> ({head[1]}) {{", '  exit_code 401 "maximum iterations";', '  exit_code 402 "second unhandled failure";']
    lines += [f'  exit_code {status} "aborted";' for status in sorted({it["abort"] for it in handlers if "abort" in it})]
    lines += ["  step setup {", "    ctx.n = 0;", "    ctx.bad = false;", "    ctx.fresh = true;", "    ctx.done = false;", "  }",
              f"  while ((not ctx.done) and (ctx.n < {table.get('max', 5)})) {{", "    if ctx.fresh {", "      step start {",
              f"        call {job}({', '.join(f'{name}: inputs.{name}' for name, _ in inputs)}) to ctx.job;", "      }", "    } else {", "      step again {",
              f"        call {job}({', '.join(f'{name}: ctx.fix.outputs.{name}' for name, _ in inputs)}) to ctx.job;", "      }", "    }",
              "    step counted {", "      ctx.n = (ctx.n + 1);", "    }", "    if ctx.job.ok {", "      step good {"]
    lines += [f"        out {name} = ctx.job.outputs.{name};" for name, _ in outputs]
    lines += ["        ctx.done = true;", "      }"]
    for one in handlers:
        takes = [name for name, _, _ in library["functions"][one["call"]][0]] if "call" in one else []
        lines += [f"    }} elif {asked(one['statuses'])} {{"] + [line[2:] for line in lines_of_handler(one, takes)]
    lines += ["    } else {", "      step unhandled {", "        exit 402 if ctx.bad;", "        ctx.bad = true;", "      }", "    }", "  }",
              "  step finish {", "    exit 401 if (not ctx.done);", "  }", "}"]
    return "\n".join(lines) + "\n"


def expansion(data, library):
    """The status and the text that `expand` gives for a spec file, or None where that isn't known here."""
    try:
        refusal, table = spec_refusal(data, library)
    except Unknown:
        return None
    return (1, f"refused: {refusal}\n") if refusal else (0, library["text"] + chain_of(table, library))
