"""The tokens of a script's text, each with its place. Places are bytes, as the program counts them."""
import re
from bisect import bisect_right
from collections import namedtuple

# A token: its sort, its text, and the bytes at which it begins and ends.
Token = namedtuple("Token", "sort text place end")
TYPES = ("integer", "string", "key", "list")
OTHER_WORDS = "float vector rotation quaternion default state if else for do while jump return"
WORDS = {*TYPES, *OTHER_WORDS.split()}
SIGNS = "++ -- += -= *= /= %= == != <= >= << >> && || + - * / % = < > ! ~ & | ^ ( ) [ ] { } , ; @".split()
SKIPPED = re.compile(rb"(?:[\t-\r ]|//[^\n]*|/\*.*?\*/)*", re.S)
TOKEN = re.compile(
    rb'(?P<name>[A-Za-z_]\w*)|(?P<integer>0[xX][0-9A-Fa-f]+|[0-9]+)|(?P<string>"(?:[^"\\]|\\.)*")|(?P<sign>'
    + b"|".join(re.escape(it.encode()) for it in SIGNS)
    + rb")",
    re.S | re.A,
)


ONE = re.compile(SKIPPED.pattern + b"(?:" + TOKEN.pattern + b")", re.S | re.A)
# What begins no token: a string or comment without an end, a number with a point, a foreign character.
UNENDED = re.compile(rb'"(?:[^"\\\n]|\\[^\n])*|/\*.*|[0-9]*\.[0-9]*|.[\x80-\xbf]*', re.S)


def cut(text):
    """The tokens of a text up to its first lexical fault, and a last one of the sort `end`."""
    tokens = []
    place = SKIPPED.match(text, cut_from(text, 0, tokens)).end()
    return [*tokens, Token("end", "", place, place)]


def cut_from(text, place, tokens):
    """Adds the tokens from a place on up to the next lexical fault. The place after the last."""
    for found in ONE.finditer(text, place):
        if found.start() != place:
            break
        sort = found.lastgroup
        first, place = found.span(sort)
        word = text[first:place].decode(errors="replace")
        tokens.append(Token("word" if word in WORDS else sort, word, first, place))
    return place


def cut_through(text):
    """The tokens of a text, also after its lexical faults, where each fault is a token of the sort `fault`."""
    tokens, place = [], 0
    while True:
        place = SKIPPED.match(text, cut_to_fault(text, place, tokens)).end()
        if place == len(text):
            return [*tokens, Token("end", "", place, place)]
        found = UNENDED.match(text, place)
        tokens.append(Token("fault", found[0].decode(errors="replace"), place, found.end()))
        place = found.end()


def cut_to_fault(text, place, tokens):
    """The same as `cut_from`, where a number with a point and an open comment are faults too."""
    known, place = len(tokens), cut_from(text, place, tokens)
    for number in range(known, len(tokens)):
        it = tokens[number]
        is_open = it.text == "/" and text.startswith(b"/*", it.place)
        if is_open or it.sort == "integer" and text.startswith(b".", it.end):
            del tokens[number:]
            return it.place
    return place


class Lines:
    """Lines and columns of a text's bytes, counted from 1."""

    def __init__(self, text):
        self.starts = [0] + [it.end() for it in re.finditer(rb"\n", text)]

    def line_of(self, place):
        return bisect_right(self.starts, place)

    def place_of(self, line, column):
        return self.starts[min(line, len(self.starts)) - 1] + column - 1
