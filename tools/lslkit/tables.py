"""The calls, events and constants of this language, read from the tables of `lsl_table`; and the names of LSL."""
import difflib
import functools
import re
from collections import namedtuple

from . import about
from .places import text_of

# Where the tables are. A package has no crates.
FOLDER = ("tools", "tables") if about.is_package() else ("crates", "lsl_table", "src")
KINDS = {"Int": "integer", "Str": "string", "Key": "key", "List": "list"}
Call = namedtuple("Call", "name home params result")
Event = namedtuple("Event", "name params")
Constant = namedtuple("Constant", "name kind value")


def rows(table, form):
    """The rows of a table's macro."""
    return re.findall(r"(?m)^ +\w+ " + form + ";$", text_of(*FOLDER, f"{table}.rt"))


def kinds_of(words):
    return tuple(KINDS[it.strip()] for it in words.split(",") if it.strip())


@functools.lru_cache(maxsize=None)
def calls():
    """The built-in calls, by their names."""
    found = rows("calls", r'"(\w+)" (\S+) \(([^)]*)\)(?: (\w+))?')
    return {name: Call(name, home, kinds_of(params), KINDS.get(result)) for name, home, params, result in found}


@functools.lru_cache(maxsize=None)
def events():
    """The events, by their names."""
    return {name: Event(name, kinds_of(params)) for name, params in rows("events", r'"(\w+)" \(([^)]*)\)')}


@functools.lru_cache(maxsize=None)
def constants():
    """The constants, by their names."""
    found = rows("constants", r'"(\w+)" (\w+)\((.*)\)')
    return {name: Constant(name, KINDS[kind], value) for name, kind, value in found}


@functools.lru_cache(maxsize=None)
def known_to_lsl():
    """What LSL has: for each name `call`, `event`, `constant` or `keyword`."""
    found = re.findall(r"(?m)^(\w+)\t(\w+)$", text_of("tools", "lsl_names.tsv"))
    return {name: sort for sort, name in found}


def is_here(name):
    """Whether this language has a call, event or constant of this name."""
    return name in calls() or name in events() or name in constants()


def signature(row):
    """A call or an event with the kinds of its arguments, and the kind of what a call gives."""
    result = getattr(row, "result", None)
    return (f"{result} " if result else "") + f"{row.name}({', '.join(row.params)})"


def nearest(name, names):
    """The name among these that a misspelled one is likely to mean, or none."""
    for it in names:
        if it.lower() == name.lower() and it != name:
            return it
    near = difflib.get_close_matches(name, sorted(names), 1, 0.75)
    return near[0] if near and near[0] != name else None
