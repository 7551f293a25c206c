"""Queries and files of restart chains as `bench/strangers` draws them: most of them right, others with values at their edges, and changed ones."""
import expected

# A library as it is printed, with its jobs and functions: per name the inputs and the outputs, each a list of (name, kind, optional).
PRINTED = """calcjob double(x: int, t?: text) -> (value: int, note?: text) {
  exit_code 310 "no number" invalidates;
  program "double";
  arg text(x);
  fetch "out.txt";
  parse {
    exit 310 if (not has(retrieved, "out.txt"));
    out value = int(trim(file(retrieved, "out.txt")));
  }
}
calcjob pair(a: text, b: folder, c?: list) -> (d: text, e: int) {
  program "pair";
  parse {
    out d = a;
    out e = code;
  }
}
calcjob idle() -> () {
  program "idle";
  parse {
  }
}
calcfunction less(x: int) -> (x: int) {
  out x = (x - 7);
}
calcfunction none() -> (x: int, y?: int) {
  out x = 1;
}
calcfunction swap(b: folder, a: text) -> (b: folder, a: text) {
  out b = b;
  out a = a;
}
calcfunction other(y: int) -> (x: int) {
  out x = y;
}
calcfunction nothing() -> () {
}
calcfunction maybe(x?: int) -> (x?: int) {
  out x = 1;
}
workchain round(n: int) -> (d?: int) {
  if (inputs.n > 0) {
    step go {
      call round(n: (inputs.n - 1)) to ctx.c;
    }
  }
}
"""
JOBS = {"double": ([("x", "int", False), ("t", "text", True)], [("value", "int", False), ("note", "text", True)]),
        "pair": ([("a", "text", False), ("b", "folder", False), ("c", "list", True)], [("d", "text", False), ("e", "int", False)]), "idle": ([], [])}
FUNCTIONS = {"less": ([("x", "int", False)], [("x", "int", False)]), "none": ([], [("x", "int", False), ("y", "int", True)]),
             "swap": ([("b", "folder", False), ("a", "text", False)], [("b", "folder", False), ("a", "text", False)]),
             "other": ([("y", "int", False)], [("x", "int", False)]), "nothing": ([], []), "maybe": ([("x", "int", True)], [("x", "int", True)])}
# The function that fits a job.
FITTING = {"double": "less", "pair": "swap", "idle": "nothing"}


def library_of(fillers):
    """The printed library with so many functions behind it, and what bench/expected.py wants to know of it."""
    more = [f"more{at}" for at in range(fillers)]
    text = PRINTED + "".join(f"calcfunction {name}(x: int) -> (x: int) {{\n  out x = x;\n}}\n" for name in more)
    functions = {**FUNCTIONS, **{name: FUNCTIONS["less"] for name in more}}
    return text.encode(), {"text": text, "jobs": JOBS, "functions": functions, "names": [*JOBS, *FUNCTIONS, *more, "round"]}


# One with 63 definitions and one with 64 among them.
LIBRARIES = dict(library_of(fillers) for fillers in (0, 53, 54))
SPECS = [
    b'name = "safe"\nof = "double"\nmax = 3\n\n[[handler]]\nstatuses = [310, 311]\npriority = 10\ncall = "less"\n\n[[handler]]\nstatuses = [312]\npriority = 20\nabort = 400\n',
    b'of = "pair"\nname = "safe"\nhandler = [{ statuses = [1], priority = 0, call = "swap" }, { priority = 1, statuses = [9999], abort = 100 }]\n',
    b'"name" = "idle_too"\n\'of\' = """idle"""\nmax = 0b101\n# a comment\n[[handler]]\nstatuses = [\n  1, # one\n  2,\n]\npriority = 1_000\ncall = "nothing"\n',
    b'name = "safe"\nof = "double"\nhandler = []\n',
]
TOKENS = [b"name", b"of", b"max", b"handler", b"statuses", b"priority", b"call", b"abort", b"[[handler]]", b"[handler]", b"[", b"]", b"[[", b"]]", b"=", b".", b'"', b"'", b'"' * 3, b"'" * 3,
          b"{", b"}", b",", b"\n", b"\r\n", b"true", b"0", b"1e5", b"inf", b"0x", b"1979-05-27", b"#", b"\\u00e9", b"\\", b"\xff", b'"double"', b'"less"', b"310"]
ODD = ("0", "1", "true", '""', '"step"', '"1a"', f'"{"a" * 64}"', f'"{"a" * 65}"', "1.5", "[]", "{}", "1979-05-27", "9223372036854775808", "inf", '"\u00e9"', "-1")


# Queries.

def node_word(rng):
    """A kind with filters."""
    filters = [rng.choice(expected.FIELDS) + rng.choice(("=", "!=", "<", ">")) + rng.choice(
        expected.STATES + ["add", "", "0", "1", "-1", "007", "9223372036854775807", "-9223372036854775808", "9223372036854775808", "+1", "1.0", "- 1", "-"])
        for _ in range(rng.choice((0, 0, 0, 1, 1, 2)))]
    return ",".join([rng.choice(expected.KINDS)] + filters)


def right_node(rng):
    """A kind with filters that can be read."""
    filters = [rng.choice(("name=add", "name!=double", "state=finished", "state!=killed", "id>1", "id<9", "status=0", "status!=0", "value>1", "value<9")) for _ in range(rng.choice((0, 0, 1)))]
    return ",".join([rng.choice(expected.KINDS)] + filters)


def link_word(rng):
    """A way with types of links."""
    return rng.choice("<>") + ",".join(rng.choice(expected.TYPES) for _ in range(rng.choice((1, 1, 2, 6)))) + rng.choice(("", "*"))


def word_changed(rng, word):
    """A word with some characters changed."""
    for _ in range(rng.choice((1, 1, 2))):
        at = rng.randrange(len(word) + 1)
        how = rng.randrange(4)
        if how == 0:
            word = word[:at] + rng.choice(",=!<>*-09aZ_ \u00e9\U0001f600") + word[at:]
        elif how == 1:
            word = word[:at] + word[at + 1:]
        elif how == 2:
            word = word[:at] + word[at:].swapcase()
        else:
            word = word[:at] + rng.choice(expected.KINDS + expected.TYPES + expected.FIELDS + expected.STATES + ["**", ",,", ">>", "\n", "#", '"']) + word[at:]
    return word


def query_words(rng, letters):
    """The words of a query, most of them right, with a few changes."""
    nodes = rng.choice((1, 1, 2, 2, 3, 4, 7, 8, 9))
    node = rng.choice((node_word, right_node, right_node))
    words = [link_word(rng) if at % 2 else node(rng) for at in range(2 * nodes - 1)]
    for _ in range(rng.choice((0, 0, 1, 1, 2))):
        how, at = rng.randrange(5), rng.randrange(len(words))
        if how == 0:
            del words[at]
        elif how == 1:
            words.insert(at, rng.choice(words))
        elif how == 2:
            words[at] = rng.choice(letters)
        else:
            words[at] = word_changed(rng, words[at])
        words = words or [""]
    return words + rng.choice(([], [], ["--limit", rng.choice(("1", "3", "1000000", "0", "1000001", "x"))], ["--limit=2"]))


# Files of restart chains.

def a_name(rng, seldom):
    """A name in quotes, or seldom something else."""
    return rng.choice(ODD) if rng.random() < seldom else '"' + rng.choice(list(JOBS) + list(FUNCTIONS) + ["round", "safe", "none_such", "more0", "more52"]) + '"'


def a_handler(rng, at, job):
    """The keys of a handler with their values."""
    statuses = [rng.choice(("1", "310", "401", "9999", "400")) for _ in range(rng.choice((1, 1, 2, 3, 16)))]
    if rng.random() < 0.04:
        statuses = rng.choice(([], ["0"], ["10000"], ["-1"], ["1"] * 17, ["true"], ["1.0"], ['"1"'], ["1", "[1]"]))
    if rng.random() < 0.5:
        remedy = "call", a_name(rng, 0.3) if rng.random() < 0.1 else f'"{FITTING.get(job, "less")}"'
    else:
        remedy = "abort", rng.choice(("99", "401", "402", "10000") + ODD) if rng.random() < 0.04 else rng.choice(("100", "400", "403", "9999"))
    keys = [("statuses", "[" + ", ".join(statuses) + "]"), ("priority", rng.choice(("-1", "1001", "0", "1000") + ODD) if rng.random() < 0.04 else str(at * 7)), remedy]
    if rng.random() < 0.04:
        keys.append(rng.choice((("call", '"less"'), ("abort", "200"), ("calls", "1"), ("zz", "[]"), ("aa", "1"), ('"a.b"', "1"))))
    if rng.random() < 0.04:
        del keys[rng.randrange(len(keys))]
    rng.shuffle(keys)
    return keys


def spec_text(rng):
    """A file of a restart chain of right keys and others, with values at their edges."""
    job = rng.choice(list(JOBS))
    top = [("name", '"safe"' if rng.random() < 0.9 else a_name(rng, 0.3)), ("of", f'"{job}"' if rng.random() < 0.95 else a_name(rng, 0.3))]
    if rng.random() < 0.5:
        top.append(("max", rng.choice(("1", "2", "3", "4", "5")) if rng.random() < 0.9 else rng.choice(("0", "6", "-1") + ODD)))
    if rng.random() < 0.05:
        top.append((rng.choice(("Name", "maxi", '"handler.call"', '"handler.abort"', '""', '"a b"', "of.x", "zz", "aa", '"\\n"')), rng.choice(ODD)))
    if rng.random() < 0.05:
        del top[rng.randrange(len(top))]
    rng.shuffle(top)
    tables = [a_handler(rng, at, job) for at in range(rng.choice((0, 1, 1, 2, 2, 3, 4, 15, 16, 17)))]
    if rng.random() < 0.3:
        items = ["{ " + ", ".join(f"{key} = {value}" for key, value in keys) + " }" for keys in tables]
        if rng.random() < 0.05:
            items.append(rng.choice(ODD))
        top.append(("handler", "[" + ", ".join(items) + "]"))
        tables = []
    lines = [f"{key} = {value}" for key, value in top]
    for keys in tables:
        lines += ["[[handler]]"] + [f"{key} = {value}" for key, value in keys]
    return ("\n".join(lines) + "\n").encode()
