"""How a text is mended of its first fault, so that the program gets to the next one: for each fault the choices of
edits, of which the one is taken that lets it go furthest."""
import re

from . import habits, kinds, script_hints, tables
from .mending import STATEMENTS, VALUES, around, blanked_line, blanked_statement, nodes, span
from .tokens import TYPES

NUMBER = re.compile(rb"[0-9]*\.[0-9]*(?:[eE][+-]?[0-9]+)?[fF]?")
INVISIBLE = ("Zs", "Cf", "Cc")
QUOTES = ("\u201c", "\u201d", "\u201e", "\u00ab", "\u00bb")
FOREIGN = ("float", "vector", "rotation", "quaternion")
OPERAND = ("name", "integer", "string")


def of(fault, source):
    """The choices of edits for a fault, each a list of edits; none where nothing more is to be found."""
    habit = habits.of(fault, source)
    if habit and habit[1]:
        return [habit[1]]
    rule = RULES.get(fault)
    return [it for it in rule(source) if it] if rule else []


# Lexical faults


def unreadable(source):
    """Bytes that aren't UTF-8."""
    text, edits = source.text, []
    if b"\0" in text:
        return []
    shown = text.decode(errors="surrogateescape")
    place = 0
    for letter in shown:
        size = len(letter.encode(errors="surrogateescape"))
        if "\udc80" <= letter <= "\udcff":
            edits.append((place, place + 1, b"_"))
        place += size
    return [edits]


def open_string(source):
    """A text without an end: it is closed in the line in which it, or an earlier one that ran over its line, begins."""
    place = script_hints.odd_quote(source)
    end = habits.line_end(source.text, place)
    rest = re.search(rb"[\])};,\s]*\Z", source.text[place + 1 : end])
    at = place + 1 + rest.start()
    return [[(at, at, b'"')]]


def open_comment(source):
    return [[(source.place, len(source.text), b"")]]


def point(source):
    found = NUMBER.match(source.text, source.place)
    whole = script_hints.whole_number(source)
    return [[(*found.span(), b"0" if whole is None else str(whole).encode())]]


def character(source):
    letter = source.text[source.place :].decode(errors="replace")[:1]
    end = source.place + len(letter.encode())
    return [[(source.place, end, b'"' if letter in QUOTES else b" ")]]


# Syntax faults


def unexpected(source):
    sign, is_all = script_hints.sign_missing(source)
    brace = None if is_all else script_hints.brace_misplaced(source, source.place)
    if brace:
        return [[(brace, brace, b"}")]]
    if sign:
        end = source.tokens[source.at - 1].end
        return [[(end, end, sign.encode())]]
    return [blanked_statement(source.text, source.place), blanked_line(source.text, source.place)]


def text_ended(source):
    closed = {opening for opening, _ in script_hints.pairs(source)}
    opened = [it for it in source.tokens if it.sort == "sign" and it.text in script_hints.OPENING and it not in closed]
    signs = "".join(script_hints.OPENING[it.text] for it in reversed(opened)).replace("]", "];").replace(")", ");")
    end = len(source.text)
    rest = "" if any(it.text == "default" for it in source.tokens) else "\ndefault { timer() { } }"
    return [[(end, end, ("\n" + signs + rest).encode())]] if signs or rest else []


def foreign_type(source):
    token = source.tokens[source.at]
    if token.text in FOREIGN:
        return [[(token.place, token.end, b"integer")]]
    end = end_of_vector(source)
    return [[(token.place, end, b"0")]] if end else [blanked_statement(source.text, source.place)]


def end_of_vector(source):
    """The byte after a `<..>` with three or four parts."""
    depth, commas = 0, 0
    for at in range(source.at + 1, len(source.tokens) - 1):
        token, after = source.tokens[at], source.tokens[at + 1]
        depth += {"(": 1, "[": 1, ")": -1, "]": -1}.get(token.text, 0) if token.sort == "sign" else 0
        if depth < 0 or token.text in (";", "{", "}"):
            return None
        commas += token.text == "," and depth == 0
        is_end = token.text == ">" and depth == 0 and commas in (2, 3)
        if is_end and after.sort not in OPERAND and after.text not in ("(", "[", "<"):
            return token.end
    return None


# Faults of names and kinds


def values_for(node, source, wanted=None):
    """Each kind of value in the place of a part of the tree."""
    start, end = span(source, node)
    chosen = [wanted, *VALUES] if wanted in VALUES else VALUES
    return [[(start, end, VALUES[kind])] for kind in chosen]


def without(node, source):
    """A statement left out."""
    start, end = span(source, node)
    return [[(start, end, b";")]]


def unknown_name(source):
    token, call = source.tokens[source.at], around(source, ("call",))
    state = around(source, ("state",))
    if state is not None and state.at == source.at and state.first < source.at:
        return [[(token.place, token.end, b"default")]]
    if call is not None and call.at == source.at:
        return of_call(source, call)
    return [[(0, 0, f"{kind} {token.text}; ".encode())] for kind in TYPES]


def of_call(source, call):
    """A call left out as a statement, or with a value in its place."""
    alone = around(source, ("value",))
    if alone is not None and alone.first == call.first and alone.last == call.last + 1:
        return without(alone, source)
    return values_for(call, source)


def taken_name(source):
    token = source.tokens[source.at]
    handler = around(source, ("handler",))
    if handler is not None and handler.at == source.at:
        return [[(*span(source, handler), b"")]]
    new, is_called = free_name(token.text, source).encode(), source.tokens[source.at + 1].text == "("
    routine = around(source, ("function", "handler"))
    last = len(source.tokens) if is_called or routine is None else routine.last
    renamed = [it for at, it in enumerate(source.tokens[:last]) if at >= source.at and it.text == token.text
               and it.sort == "name" and (source.tokens[at + 1].text == "(") == is_called]
    return [[(it.place, it.end, new) for it in renamed]]


def free_name(name, source):
    taken = {it.text for it in source.tokens}
    return next(it for it in (f"{name}_{number}" for number in range(2, 70000)) if it not in taken)


def wrong_kind(source):
    for it in kinds.conversions(source.script):
        if it.value.first == source.at and not kinds.becomes(it.found, it.wanted):
            return values_for(it.value, source, it.wanted)
    back = around(source, ("return",))
    if back is not None and back.first == source.at:
        token = source.tokens[back.first]
        values = [b"return;", *(b"return " + it + b";" for it in VALUES.values())]
        return [[(token.place, span(source, back)[1], it)] for it in values]
    inner = [it for it in nodes(source) if it.first == source.at and it.form not in STATEMENTS]
    return values_for(inner[0], source) if inner else []


def wrong_operator(source):
    for node in nodes(source):
        if node.form in ("binary", "unary", "step", "assign") and node.at == source.at:
            return of_value(source, node)
    return []


def of_value(source, node):
    """A value left out where it is a statement, or another one in its place."""
    for it in nodes(source):
        if it.form == "value" and it.first == node.first and it.last == node.last + 1:
            return without(it, source)
    return values_for(node, source)


def first_of(source, forms):
    """The repair of the part of these forms whose fault is at the token."""
    for node in nodes(source):
        if node.form in forms and source.at in (node.at, node.first):
            return of_value(source, node)
    return []


def no_variable(source):
    for node in nodes(source):
        if node.form in ("assign", "step") and source.at in (node.at, node.first, node.parts[0].first):
            return of_value(source, node)
    return []


def no_constant(source):
    token = source.tokens[source.at]
    return [[(token.place, token.end, it)] for it in VALUES.values()]


def no_statement(source):
    node = around(source, ("state", "jump"))
    return without(node, source) if node is not None else []


def wrong_event(source):
    """The handler of another event: its parameters become variables of its body, so that this is read too."""
    handler = around(source, ("handler",))
    state = next((it for it in source.script.states if handler in it.parts), None)
    if state is None:
        return []
    used = {it.text for it in state.parts if it is not handler}
    start, end = span(source, handler)
    opening = source.tokens[handler.parts[-1].first].end
    declared = "".join(f" {it.kind} {it.text};" for it in handler.parts[:-1])
    free = [row for name, row in tables.events().items() if name not in used]
    edits = [[(start, opening, f"{it.name}({made_up(it.params)}) {{{declared}".encode())] for it in free[:1]]
    return [*edits, [(start, end, b"")]]


def made_up(params):
    """Parameters of these kinds, of made-up names."""
    return ", ".join(f"{kind} given_{at}" for at, kind in enumerate(params))


RULES = {
    1: unreadable,
    2: open_string,
    3: open_comment,
    4: point,
    5: character,
    10: unexpected,
    11: text_ended,
    12: foreign_type,
    20: unknown_name,
    21: taken_name,
    22: wrong_kind,
    23: wrong_operator,
    24: lambda source: first_of(source, ("cast",)),
    25: lambda source: first_of(source, ("call",)),
    26: no_variable,
    27: no_constant,
    28: no_statement,
    29: no_statement,
    30: wrong_event,
    31: lambda source: first_of(source, ("call",)),
}
