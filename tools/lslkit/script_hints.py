"""What helps to mend a script's first fault: signatures, kinds, nearest names. A function for each fault."""
import re
import unicodedata
from collections import namedtuple

from . import habits, name_hints, syntax, tokens

# The text, its tokens, its lines, its tree or what was unexpected, and the fault's place and token.
Source = namedtuple("Source", "text tokens lines script unexpected place at")
OPENING = {"{": "}", "(": ")", "[": "]"}
WHOLE_SECONDS = ("llSetTimerEvent", "llSleep")


def source_of(text, line, column):
    """The script with the fault at this place."""
    cut, lines = tokens.cut(text), tokens.Lines(text)
    place = lines.place_of(line, column)
    script = unexpected = None
    try:
        script = syntax.read(cut)
    except syntax.Unexpected as fault:
        unexpected = fault
    at = next((number for number, it in enumerate(cut) if it.place >= place), len(cut) - 1)
    return Source(text, cut, lines, script, unexpected, place, at)


def hint(fault, source):
    """The hints for a fault, in the order in which they are said."""
    habit = habits.of(fault, source)
    if habit:
        return [habit[0]]
    rule = HINTS.get(fault)
    if rule is None or (fault >= 20 and source.script is None):
        return []
    return [it for it in rule(source) if it]


# Lexical faults


def whole_number(source):
    """The whole number that is meant by the number with a point here: 0 stays 0, and a time is at least 1."""
    written = re.match(rb"[0-9]*\.?[0-9]*(?:[eE][+-]?[0-9]+)?", source.text[source.place :])[0].decode()
    try:
        meant = float(written)
    except ValueError:
        return None
    least = 1 if meant > 0 and is_time(source) else 0
    return max(least, int(min(meant, 2147483647) + 0.5))


def is_time(source):
    """Whether the fault is in the argument of a call that takes seconds."""
    before = [it.text for it in source.tokens if it.end <= source.place]
    return before[-1:] == ["("] and before[-2:-1] and before[-2] in WHOLE_SECONDS


def number_with_point(source):
    """What a whole number in its place is."""
    whole = whole_number(source)
    before = "write whole seconds: " if is_time(source) else "only whole numbers are in the language, as "
    yield None if whole is None else f"{before}{whole}"


def open_string(source):
    place = odd_quote(source)
    if place != source.place:
        yield habits.said("quotes", source.lines.line_of(place))


def odd_quote(source):
    """Where the first text begins that isn't closed in its line."""
    over = (it for it in source.tokens if it.sort == "string" and "\n" in it.text)
    return next((it.place for it in over), source.place)


def not_utf8(source):
    is_utf16 = source.text[:2] in (b"\xff\xfe", b"\xfe\xff") or b"\0" in source.text[:200]
    yield habits.said("utf16" if is_utf16 else "latin1")


def foreign_character(source):
    """The name of a character that can't be seen, or is no sign of the language."""
    character = source.text[source.place :].decode(errors="replace")[:1]
    name = unicodedata.name(character, "a control character")
    yield f"it is U+{ord(character):04X}, {name}"
    if character == "\ufeff":
        yield "save the file without a byte order mark"
    elif unicodedata.category(character) in ("Zs", "Cf"):
        yield "write a plain space in its place, or nothing"
    elif character in "\u201c\u201d\u201e":
        yield 'write a plain " in its place'


# Syntax faults


def listed(words):
    words = list(dict.fromkeys(words))
    return words[0] if len(words) == 1 else ", ".join(words[:-1]) + " or " + words[-1]


def unexpected_token(source):
    if source.unexpected is None:
        return
    yield "expected " + listed(source.unexpected.wanted) if source.unexpected.wanted else None
    sign, is_all = missing_sign(source)
    yield sign if is_all else misplaced_brace(source, source.place) or sign


def missing_sign(source):
    """The sign that is missing before the unexpected token, in words, and whether the script continues with it to its
    end."""
    sign, is_all = sign_missing(source)
    if sign is None:
        return None, False
    at = source.unexpected.at
    before, here = (source.lines.line_of(it) for it in (source.tokens[at - 1].end, source.tokens[at].place))
    return f"perhaps a `{sign}` is missing {f'after line {before}' if before < here else 'before it'}", is_all


def sign_missing(source):
    """The sign with which the script continues, and whether it does to its end."""
    at = source.unexpected.at if source.unexpected else 0
    for sign in (";", ")", "]", "{", "(", ",") if at else ():
        token = tokens.Token("sign", sign, 0, 0)
        try:
            reached = len(source.tokens) + 1
            syntax.read([*source.tokens[:at], token, *source.tokens[at:]])
        except syntax.Unexpected as fault:
            reached = fault.at
        if reached > at + 1:
            return sign, reached > len(source.tokens)
    return None, False


def misplaced_brace(source, until):
    """Which `}` may have closed another block than was meant, in words."""
    closing = brace_misplaced(source, until)
    if closing is None:
        return None
    opening = next(it for it, end in pairs(source) if end.place == closing)
    lines = [source.lines.line_of(it) for it in (opening.place, closing)]
    return f"perhaps the `{{` of line {lines[0]} isn't closed: the `}}` of line {lines[1]} is further left"


def brace_misplaced(source, until):
    """Where the first `}` is that is further left than the line of its `{`."""
    for opening, closing in pairs(source):
        lines = [source.lines.line_of(it.place) for it in (opening, closing)]
        begins = source.text[source.lines.starts[lines[1] - 1] : closing.place].strip() == b""
        is_left = len(indent_of(source, closing.place)) < len(indent_of(source, opening.place))
        if closing.text == "}" and closing.place < until and lines[0] < lines[1] and begins and is_left:
            return closing.place
    return None


def pairs(source):
    """The opening and closing signs that belong together, in the order of the closing ones."""
    opened = []
    for token in source.tokens:
        if token.sort == "sign" and token.text in OPENING:
            opened.append(token)
        elif token.sort == "sign" and opened and token.text == OPENING[opened[-1].text]:
            yield opened.pop(), token


def text_ended(source):
    """Where the innermost sign is that is still open."""
    closed = {opening for opening, _ in pairs(source)}
    opened = [it for it in source.tokens if it.sort == "sign" and it.text in OPENING and it not in closed]
    if opened:
        line = source.lines.line_of(opened[-1].place)
        yield misplaced_brace(source, source.place) or f"the `{opened[-1].text}` of line {line} isn't closed"
    elif source.unexpected and source.unexpected.wanted:
        yield "expected " + listed(source.unexpected.wanted)


def indent_of(source, place):
    start = source.lines.starts[source.lines.line_of(place) - 1]
    return re.match(rb"[ \t]*", source.text[start:])[0]


def foreign_type(source):
    word = name_hints.word_at(source)
    yield "only whole numbers are in the language: write integer" if word == "float" else None
    yield "vectors and rotations aren't in the language" if word != "float" else None


HINTS = {
    1: not_utf8,
    2: open_string,
    4: number_with_point,
    5: foreign_character,
    10: unexpected_token,
    11: text_ended,
    12: foreign_type,
    20: name_hints.unknown_name,
    21: name_hints.taken_name,
    22: name_hints.wrong_kind,
    23: name_hints.wrong_operands,
    24: name_hints.no_cast,
    25: name_hints.wrong_count,
    26: name_hints.no_variable,
    27: name_hints.no_constant,
    28: name_hints.state_in_function,
    29: name_hints.unknown_label,
    30: name_hints.wrong_event,
    31: name_hints.no_result,
}
