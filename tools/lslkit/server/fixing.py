"""Fixes that follow from what is said of a fault: the name that is meant, the cast that is missing, `==` for `=`."""
import re

from .. import tokens
from ..diagnostics import Fix

NAME = re.compile(r"do you mean (\w+)")
CAST = re.compile(r"write \((\w+)\) before it")
COMPARE = "write == to compare"
ENDS = (",", ")", "]", ";")
OPENING, CLOSING = ("(", "["), (")", "]")


def with_fixes(text, found):
    """The diagnostics of a text, with fixes where they have none and their hints say how."""
    cut = tokens.cut_through(text) if any(not it.fixes for it in found) else []
    return [it if it.fixes else it._replace(fixes=list(fixes_of(cut, it))) for it in found]


def fixes_of(cut, it):
    for hint in [it.words, *it.hints]:
        name, cast = NAME.search(hint), CAST.search(hint)
        at = next((number for number, token in enumerate(cut) if token.place == it.start), None)
        if name and at is not None and cut[at].sort == "name":
            yield Fix(f"Write {name[1]}", [(it.start, cut[at].end, name[1].encode())])
        elif cast and at is not None:
            yield Fix(f"Write ({cast[1]}) before it", cast_before(cut, at, cast[1]))
        elif COMPARE in hint:
            yield from compared(cut, it)


def cast_before(cut, at, kind):
    """The edits that cast the value which begins at a token, in parentheses where it is more than an operand."""
    place, end = cut[at].place, end_of_value(cut, at)
    if end == end_of_operand(cut, at):
        return [(place, place, f"({kind})".encode())]
    return [(place, place, f"({kind})(".encode()), (cut[end - 1].end, cut[end - 1].end, b")")]


def closed(cut, at):
    """The number of the token after the bracket that closes the one at a token."""
    depth = 0
    for number in range(at, len(cut)):
        sign = cut[number].text if cut[number].sort == "sign" else ""
        depth += (sign in OPENING) - (sign in CLOSING)
        if depth == 0:
            return number + 1
    return len(cut) - 1


def end_of_operand(cut, at):
    """The number of the token after a name, a literal, a call, or what is in brackets."""
    if cut[at].text in OPENING and cut[at].sort == "sign":
        return closed(cut, at)
    is_call = cut[at].sort == "name" and cut[at + 1].text == "(" and cut[at + 1].sort == "sign"
    return closed(cut, at + 1) if is_call else at + 1


def end_of_value(cut, at):
    """The number of the token after the value that begins at a token."""
    while at < len(cut) - 1 and not (cut[at].sort == "sign" and cut[at].text in ENDS):
        at = closed(cut, at) if cut[at].sort == "sign" and cut[at].text in OPENING else at + 1
    return at


def compared(cut, it):
    """The `=` of an assignment becomes `==`."""
    signs = [token for token in cut if it.start <= token.place < it.end and token.sort == "sign" and token.text == "="]
    for token in signs[:1]:
        yield Fix("Write ==", [(token.place, token.end, b"==")])
