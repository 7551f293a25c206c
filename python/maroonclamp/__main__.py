"""The store of a folder, by the command line: `python3 -m maroonclamp --help`."""
import argparse
import os
import sys

from . import crate, page, prov
from .errors import Damaged, MaroonclampError, NoStore, Unavailable, Unknown
from .store import Store

ABOUT = """Reads the store of the current folder, also while a run goes on. Nothing here is proved.

  page [--width W] [--pictures N]   one file of HTML, on the standard output
  prov PID                          where the results of a process came from, as W3C PROV-JSON
  crate PID [--to FOLDER]           a process with its files as a folder for an archive, an RO-Crate of the kind Process Run Crate
  report PID                        how it went
  list, show N, tree PID, graph     what the program prints

Ends with 0, 1 where it is refused, 5 where a file can't be read or written, 6 where the store is damaged."""


def words_of():
    """The words of the command line."""
    words = argparse.ArgumentParser(prog="python3 -m maroonclamp", description=ABOUT, formatter_class=argparse.RawDescriptionHelpFormatter, usage=argparse.SUPPRESS)
    words.add_argument("command", choices=("page", "prov", "crate", "report", "list", "show", "tree", "graph"))
    words.add_argument("number", type=int, nargs="?")
    words.add_argument("--store", default=".", help="the folder that has the store, by default the current one")
    words.add_argument("--width", type=int, default=None, help="of page: values are cut at so many characters")
    words.add_argument("--pictures", type=int, default=40, help="of page: so many submissions have pictures by Graphviz")
    words.add_argument("--to", default=None, help="of crate: the folder to be made, by default crate-PID")
    words.add_argument("--licence", default=None, help="of crate: the address of a licence for what is in it")
    words.error = lambda text: (print(f"maroonclamp: {text}; python3 -m maroonclamp --help", file=sys.stderr), sys.exit(1))
    found = words.parse_args()
    if (found.number is None) == (found.command in ("prov", "crate", "report", "show", "tree")):
        words.error(f"{found.command} takes {'no' if found.number is not None else 'a'} number")
    return found


def text_of(words):
    """What a command prints."""
    store = Store(words.store)
    if words.command == "page":
        return page.page(store, words.width, words.pictures)
    if words.command == "prov":
        return prov.text(store.process(words.number))
    if words.command == "crate":
        return crate.write(store.process(words.number), words.to or f"crate-{words.number}", words.licence) + "\n"
    if words.command == "report":
        return store.process(words.number).report()
    return store.text(words.command, words.number)


def main():
    """Prints what a command prints, and ends with a status."""
    words = words_of()
    sys.stdout.reconfigure(encoding="utf-8", errors="replace")
    try:
        sys.stdout.write(text_of(words))
        sys.stdout.flush()
    except BrokenPipeError:
        os.dup2(os.open(os.devnull, os.O_WRONLY), 1)
        return 8
    except Damaged as error:
        print(error)
        return 6
    except (Unavailable, OSError) as error:
        print(f"maroonclamp: {error}", file=sys.stderr)
        return 5
    except NoStore:
        print("refused: no store")
        return 1
    except (Unknown, MaroonclampError) as error:
        print(f"refused: {error}")
        return 1
    return 0


if __name__ == "__main__":
    sys.exit(main())
