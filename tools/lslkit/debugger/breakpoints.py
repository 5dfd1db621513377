"""Where a run is to stop: what words ask for, as a condition of the core, and the first or last moment that has it."""
import os
import re
from collections import namedtuple

TEST = re.compile(r'(\w+)\s*(==|!=|<=|>=|<|>)\s*("(?:[^"\\]|\\.)*"|-?\d+)')
# Conditions that are words of the core, and how many words each takes.
PLAIN = {"event": (1, 2), "said": (1, 99), "fault": (0, 0), "changes": (1, 1)}
FORM = "a condition is NAME OP VALUE: OP is == != < <= > >=, VALUE a number or a text in quotes"

# What is looked for: words of the core, and a test that must hold there too, or none.
Condition = namedtuple("Condition", "words test")


class Wrong(Exception):
    """Words that ask for nothing that there is."""


class Breakpoint:
    """A condition with the number by which it is named, and the words that set it."""

    def __init__(self, number, said, condition, is_temporary=False):
        self.number, self.said, self.condition, self.is_temporary, self.hits = number, said, condition, is_temporary, 0


def test_of(trace, text):
    """The core's words for a test of a variable."""
    found = TEST.fullmatch(text.strip())
    if not found:
        raise Wrong(FORM)
    need_variable(trace, found[1])
    return ["if", found[1], found[2], found[3]]


def need_variable(trace, name):
    if name not in trace.variables:
        raise Wrong(f"no variable is called `{name}`")


def condition_of(trace, text, file=None):
    """The condition that words ask for, and how it is said: a line (of `file` where none is named), a function, an
    event, a text that is said, a fault, a variable; after a place `if` and a test; or a test alone."""
    place, _, test = f" {text.strip()}".partition(" if ")
    place = place.strip()
    if TEST.fullmatch(place):
        place, test = "", place
    tested = test_of(trace, test) if test else None
    if not place:
        if tested is None:
            raise Wrong("a place or a condition is missing")
        return Condition(tested, None), " ".join(tested)
    words, said = place_of(trace, place.split(), file)
    return Condition(words, tested), said + (f" {' '.join(tested)}" if tested else "")


def place_of(trace, words, file):
    """The core's words for a place, and how it is said."""
    first, rest = words[0], words[1:]
    if first in PLAIN and (rest or first == "fault"):
        least, most = PLAIN[first]
        if not least <= len(rest) <= most:
            raise Wrong(f"`{first}` takes {'one word' if most == 1 else 'other words'}")
        if first == "changes":
            need_variable(trace, rest[0])
        words = [first, " ".join(rest)] if first == "said" else words
        return words, " ".join(words)
    if rest:
        raise Wrong(f"`{' '.join(words)}` is no place: write LINE, FILE:LINE, a function or an event")
    name, _, number = first.rpartition(":")
    if number.isdigit():
        return line_of(trace, file_of(trace, name) if name else file, int(number))
    if first not in trace.routines():
        raise Wrong(f"no function and no event is called `{first}`")
    return ["routine", first], first


def line_of(trace, file, number):
    """A line at which a statement begins: this one, or the next one."""
    if file is None:
        raise Wrong("which file? write FILE:LINE")
    line = next_line(trace, file, number)
    if line is None:
        raise Wrong(f"no statement begins at line {number} of {file} or after it")
    return ["line", file, str(line)], f"{os.path.basename(file)}:{line}"


def next_line(trace, file, number):
    """The least line from this one on at which a statement begins; none where there is none."""
    return min((it for it in trace.statement_lines(file) if it >= number), default=None)


def file_of(trace, name):
    """The file of scripts that a name means, which may leave out folders and the extension."""
    files = trace.files()
    for of in (str, os.path.abspath, os.path.basename, lambda it: os.path.splitext(os.path.basename(it))[0]):
        found = [it for it in files if of(it) == (of(name) if of is os.path.abspath else name)]
        if found:
            return found[0]
    raise Wrong(f"no script's file is called `{name}`: they are {', '.join(files)}")


def beyond(moment, is_back):
    """The moment from which a search in this direction meets a moment first."""
    return min(moment.number + 1, moment.count) if is_back else moment.number - 1


def beside(core, moment, condition, is_back=False):
    """The next or last moment at which a condition holds; none where there is none."""
    how = "reverse-until" if is_back else "until"
    found = core.seek(moment, how, *condition.words)
    while found is not None and condition.test:
        # The nearest moment at which the test holds, from this one on: it may be this one.
        tested = core.seek(beyond(found, is_back), how, *condition.test)
        if tested is None or tested.number == found.number:
            return tested
        found = core.seek(beyond(tested, is_back), how, *condition.words)
    return found
