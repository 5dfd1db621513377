"""A journal: its lines, and the handlers that they tell of (docs/WORLDS.md)."""
import re
from collections import namedtuple

from .quoting import unquoted

FIELD = re.compile(r'"((?:[^"\\]|\\.)*)"|(\S+)')
ENDS = ("done", "fault")
# The lines that are of no script or object.
UNNUMBERED = ("frozen",)

# A line: its first word, the number of its script or object, and what follows that.
Entry = namedtuple("Entry", "word number rest")


class Handler:
    """A handler: its script, its event and arguments, the entries at which it began and ended, and how it ended."""

    __slots__ = ("script", "event", "args", "begin", "end", "ending", "charge")

    def __init__(self, script, event, args, begin):
        self.script, self.event, self.args, self.begin = script, event, args, begin
        self.end = self.ending = self.charge = None


def entry_of(line):
    """The entry of a line, or nothing where it is none."""
    word, _, rest = line.partition(" ")
    if word in UNNUMBERED:
        return Entry(word, 0, rest)
    number, _, rest = rest.partition(" ")
    return Entry(word, int(number), rest) if number.isdigit() else None


def read(text):
    """The entries of a journal. A line that is none is an error of value."""
    entries = []
    for number, line in enumerate(text.split("\n")[:-1], 1):
        entry = entry_of(line)
        if entry is None:
            raise ValueError(f"line {number} is no line of a journal: {line[:60]}")
        entries.append(entry)
    return entries


def fields(rest):
    """The words of a line, each as its text and whether it was quoted."""
    found = FIELD.finditer(rest)
    return [(unquoted(it[1]), True) if it[2] is None else (it[2], False) for it in found]


def event_of(entry):
    """The event of a `took` or `drop` line, and its arguments."""
    event, _, args = entry.rest.partition(" ")
    return event, args


def handlers(entries):
    """All handlers, in the order in which they began; one that was cut has no end."""
    found, running = [], {}
    for place, entry in enumerate(entries):
        if entry.word == "took":
            running[entry.number] = Handler(entry.number, *event_of(entry), place)
            found.append(running[entry.number])
        elif entry.word in ENDS and entry.number in running:
            handler = running.pop(entry.number)
            handler.end, handler.ending = place, entry.word
            handler.charge = int(entry.rest) if entry.word == "done" else None
    return found
