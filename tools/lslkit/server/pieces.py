"""A script's text in pieces: each global, function, handler and head of a state. A piece that an edit left alone keeps
what was read of it, so that a key in one function costs the reading of that function."""
import functools
import re

from .. import tables, tokens
from . import names

TYPE = "(?:integer|string|key|list|float|vector|rotation|quaternion)"
# A head with its parameters, which begins a routine wherever it is.
HEAD = rf"(?P<blank>[ \t]*)(?:{TYPE}[ \t]+)?(?P<name>[A-Za-z_]\w*)[ \t]*\(\s*(?:\)|{TYPE}\s+\w+[^(){{}};\"/]*\))\s*\{{"
STATE = r"(?P<state>default|state[ \t]+[A-Za-z_]\w*)\s*\{"
STRING = r'"(?:[^"\\]|\\.)*"'
# A string that has no end is taken to end with its line.
SHORT_STRING = r'"(?:[^"\\\n]|\\.)*"?'
OTHER = r"//[^\n]*|/\*.*?\*/|/|(?P<sign>[{};])|\Z"
MARK, SHORT_MARK = (
    re.compile(rf'(?:^(?:{STATE}|{HEAD})|[^"/{{}};\n]*(?:\n|{it}|{OTHER}))'.encode(), re.S | re.M | re.A)
    for it in (STRING, SHORT_STRING)
)
STATE_HEAD = re.compile(rb"\b(?:default|state\s+[A-Za-z_]\w*)\s*(?:(?://[^\n]*\n|/\*.*?\*/)\s*)*\{\Z", re.S | re.A)
NO_HEADS = {it.encode() for it in tokens.WORDS}


class Piece:
    """A piece of a script, read when that is needed. Its places count from its start."""

    def __init__(self, sort, text):
        self.sort, self.text = sort, text
        self.ends_open = False

    @functools.cached_property
    def tokens(self):
        return tokens.cut_through(self.text)

    @functools.cached_property
    def names(self):
        return names.read(self.tokens, self.sort)


class Splitter:
    """Finds where the pieces of a text end."""

    def __init__(self, text):
        self.text, self.found = text, []
        self.start = self.depth = 0
        self.in_state = False

    def emit(self, sort, end):
        if end > self.start:
            self.found.append((sort, self.start, end))
        self.start = end

    def begin_state(self, end):
        self.emit("state", end)
        self.depth, self.in_state = 1, True

    def abandon(self, at):
        """Ends what is open: a head that only begins outside of it was found."""
        if self.depth:
            self.emit("handler" if self.in_state and self.depth > 1 else "rest" if self.in_state else "function", at)
        self.depth, self.in_state = 0, False

    def head(self, found):
        """The head of a routine, with its brace."""
        name = found["name"].decode()
        if found["name"] in NO_HEADS:
            self.opened(found.end())
        elif name in tables.events() and self.in_state:
            if self.depth > 1:
                self.emit("handler", found.start())
            self.depth = 2
        elif self.depth > 1 and not found["blank"] or self.depth == 1 and not self.in_state and not found["blank"]:
            self.abandon(found.start())
            self.depth = 1
        else:
            self.opened(found.end())

    def opened(self, end):
        if self.depth == 0 and STATE_HEAD.search(self.text, self.start, end):
            self.begin_state(end)
            return
        self.depth += 1

    def closed(self, end):
        self.depth = max(0, self.depth - 1)
        if self.depth == 1 and self.in_state:
            self.emit("handler", end)
        elif self.depth == 0:
            self.emit("close" if self.in_state else "function", end)
            self.in_state = False

    def ended(self, end):
        """A `;`."""
        if self.depth == 0:
            self.emit("global", end)

    def split(self, mark):
        for found in mark.finditer(self.text):
            sign = found["sign"]
            if sign == b"{":
                self.opened(found.end())
            elif sign == b"}":
                self.closed(found.end())
            elif sign:
                self.ended(found.end())
            elif found["state"]:
                self.abandon(found.start())
                self.begin_state(found.end())
            elif found["name"]:
                self.head(found)
        self.emit("handler" if self.in_state and self.depth > 1 else "rest", len(self.text))
        return self.found


def has_open_string(text):
    """Whether a string of the text has no end."""
    rest = re.sub(rb'"(?:[^"\\]|\\.)*"|//[^\n]*|/\*.*?\*/', b"", text, flags=re.S)
    return b'"' in rest


def split(text):
    """The pieces of a text, each as its sort, its first byte and the byte after its last."""
    return Splitter(text).split(SHORT_MARK if has_open_string(text) else MARK)


def read(text, earlier):
    """The pieces of a text with their first bytes, and all of them by their sorts and texts. `earlier` are those of the
    text before."""
    found, known = [], {}
    for sort, start, end in split(text):
        key = sort, text[start:end]
        known[key] = known.get(key) or earlier.get(key) or Piece(*key)
        found.append((start, known[key]))
    return found, known
