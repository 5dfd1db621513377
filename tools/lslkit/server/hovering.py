"""Hover: what the token under the cursor is."""
import re

from .. import tables
from . import phrases, values

LOCAL = {"parameter": "parameter", "variable": "local variable", "label": "label"}
NOT_HERE = "LSL has the {sort} `{name}`, and this language doesn't."


def hover(document, params):
    place = document.lines.place(params["position"])
    spot = document.script.spot(place)
    said = of_token(document, spot) if spot else None
    if not said:
        return None
    return {"contents": {"kind": "markdown", "value": said}, "range": document.lines.range(spot.start, spot.end)}


def of_token(document, spot):
    token = spot.token
    if token.sort == "string":
        return of_string(token)
    if token.sort == "integer":
        value = values.integer(token.text)
        return f"`{value}`, `0x{value % 2**32:X}`. It is charged 8."
    if token.sort == "sign":
        return of_list(document.script, spot) if token.text in ("[", "]") else None
    return of_name(document, spot)


def counted(number, noun):
    return f"{number:,} {noun}{'' if number == 1 else 's'}"


def of_string(token):
    text = values.string(token.text)
    charge = values.charge_of_text(text)
    return f"{counted(len(text), 'character')}, {counted(charge - 16, 'byte')}. It is charged {charge:,}."


def of_list(script, spot):
    """The charge of a list of literals and constants, at one of its brackets."""
    tokens = script.pieces[spot.piece].tokens
    step, at, depth = (1 if spot.token.text == "[" else -1), spot.at, 0
    while 0 <= at < len(tokens):
        depth += {"[": 1, "]": -1}.get(tokens[at].text, 0) if tokens[at].sort == "sign" else 0
        if depth == 0:
            break
        at += step
    first, last = sorted((spot.at, at))
    charge = values.charge_of_list(tokens[first + 1 : last], tables.constants()) if depth == 0 else None
    return f"It is charged {charge:,}." if charge else None


def of_name(document, spot):
    script, name = document.script, spot.token.text
    meaning = script.meaning(spot)
    if meaning is None:
        return phrases.KINDS.get(name) or phrases.STATEMENTS.get(name)
    if meaning.sort in phrases.TABLES:
        said = phrases.code(phrases.signature(meaning.sort, name)) + "\n" + phrases.does(meaning.sort, name)
        return said + charge_of_constant(meaning)
    if meaning.sort == "unknown":
        sort = tables.known_to_lsl().get(name)
        return NOT_HERE.format(sort=sort, name=name) if sort and not tables.is_here(name) else None
    number, declared = script.declared(meaning)
    parts = [heading(script, number, declared), comment_of(script, number, declared)]
    parts.append(value_of(script, number, declared) if meaning.sort == "global" else "")
    parts.append(places_of(document, meaning, declared))
    return "\n\n".join(filter(None, parts))


def charge_of_constant(meaning):
    row = tables.constants().get(meaning.name) if meaning.sort == "constant" else None
    return f" It is charged {values.charge_of_text(values.string(row.value))}." if row and row.kind == "string" else ""


def heading(script, number, declared):
    """What a name of the script is, as code."""
    if declared.sort == "function":
        return phrases.code(phrases.own_signature(declared, script.params_of(script.pieces[number], declared)))
    if declared.sort == "state":
        return phrases.code(declared.name if declared.name == "default" else f"state {declared.name}")
    if declared.sort == "label":
        return phrases.code(f"@{declared.name};")
    sort = "global variable" if declared.sort == "global" else LOCAL[declared.sort]
    return f"{phrases.code(f'{declared.kind} {declared.name}')}\n{sort}"


def comment_of(script, number, declared):
    """The comment directly above a global, a function or a state."""
    if declared.sort not in ("global", "function", "state"):
        return ""
    piece = script.pieces[number]
    above = piece.text[: piece.tokens[0].place].decode(errors="replace")
    above = above.rsplit("\n\n", 1)[-1] if not re.search(r"\n[ \t]*\n[ \t]*\Z", above) else ""
    lines = [re.sub(r"^\s*(//+|/\*+|\*+/?)\s?|\s*\*+/\s*$", "", it).strip() for it in above.strip().split("\n")]
    return "\n".join(filter(None, lines))


def value_of(script, number, declared):
    """The charge of a global's value, where that is a string or a list."""
    tokens = script.pieces[number].tokens
    texts = [it.text for it in tokens]
    if declared.kind == "integer" or texts[declared.at + 1] != "=" or ";" not in texts:
        return ""
    value = tokens[declared.at + 2 : texts.index(";")]
    if len(value) > 1 and value[0].text == "[" and value[-1].text == "]":
        charge = values.charge_of_list(value[1:-1], tables.constants())
    else:
        charge = values.charge_of(value[0], tables.constants()) if len(value) == 1 else None
    return f"Its value is charged {charge:,}." if charge else ""


def places_of(document, meaning, declared):
    """Where a variable is set, and where a state, function or label is used."""
    found = [it for it in document.script.places(meaning) if not it.is_declaration]
    if declared.sort in ("global", "variable", "parameter"):
        written = [it for it in found if it.is_written]
        if written:
            return f"Set in {lines_of(document, written)}."
        return "It keeps its first value." if found else "It isn't used."
    verb = {"state": "Entered from", "label": "Jumped to from", "function": "Called in"}[declared.sort]
    return f"{verb} {lines_of(document, found)}." if found else ""


def lines_of(document, places):
    numbers = sorted({document.lines.line_of(it.start) + 1 for it in places})
    shown = ", ".join(map(str, numbers[:8])) + (", ..." if len(numbers) > 8 else "")
    return f"line{'' if len(numbers) == 1 else 's'} {shown}"
