"""Inlay hints: the names of parameters before arguments, and who calls a function."""
from .. import tables
from . import phrases

FEWEST = 2


def inlay_hints(document, params):
    lines, script = document.lines, document.script
    first, last = (lines.place(params["range"][key]) for key in ("start", "end"))
    found = []
    for number, piece in enumerate(script.pieces):
        start = script.starts[number]
        if start < last and start + len(piece.text) > first:
            for use in piece.names.uses:
                if use.sort == "call":
                    found += hints_of(script, number, use)
    return [hint(lines, *it) for it in found if first <= it[0] <= last]


def names_of(script, name):
    if name in script.own["function"]:
        return [it.name for it in script.function_params(name)]
    return phrases.entry_of("call", name).get("params", []) if name in tables.calls() else []


def hints_of(script, number, use):
    """The places of a call's arguments with their names, where a literal doesn't say what it is."""
    names = names_of(script, use.name)
    if len(names) < FEWEST:
        return
    tokens, start = script.pieces[number].tokens, script.starts[number]
    depth, argument, is_first = 0, 0, True
    for at in range(use.at + 1, len(tokens) - 1):
        token = tokens[at]
        sign = token.text if token.sort == "sign" else ""
        if is_first and depth == 1 and token.sort in ("integer", "string") or sign == "[" and is_first and depth == 1:
            if argument < len(names):
                yield start + token.place, names[argument]
        is_first = depth == 0 and sign == "(" or depth == 1 and sign == ","
        depth += {"(": 1, "[": 1, ")": -1, "]": -1}.get(sign, 0)
        argument += depth == 1 and sign == ","
        if depth == 0 or sign in ("{", "}", ";"):
            return


def hint(lines, place, name):
    return {"position": lines.position(place), "label": f"{name}:", "kind": 2, "paddingRight": True}


# Who calls a function

FUNCTION, EVENT = 12, 24


def prepare_calls(document, params):
    spot = document.script.spot(document.lines.place(params["position"]))
    meaning = document.script.meaning(spot) if spot else None
    if not meaning or meaning.sort != "function":
        return None
    return [item(document, document.script.own["function"][meaning.name])]


def item(document, number):
    """A function or a handler, as an item of the hierarchy."""
    script = document.script
    declared = script.declared_by(script.pieces[number])
    place = script.place_of(number, declared.at, True, False)
    first = script.starts[number] + script.pieces[number].tokens[0].place
    last = script.starts[number] + len(script.pieces[number].text.rstrip())
    kind = FUNCTION if declared.sort == "function" else EVENT
    made = {"name": declared.name, "kind": kind, "uri": document.uri, "data": number}
    made["range"] = document.lines.range(min(first, place.start), max(last, place.end))
    made["selectionRange"] = document.lines.range(place.start, place.end)
    return made


def incoming(document, params):
    """The functions and handlers that call the item, each with the places."""
    script, name, found = document.script, params["item"]["name"], []
    for number, piece in enumerate(script.pieces):
        places = [it for it in piece.names.uses if it.sort == "call" and it.name == name]
        if places and script.declared_by(piece):
            found.append({"from": item(document, number), "fromRanges": ranges(document, number, places)})
    return found


def outgoing(document, params):
    """The functions of the script that the item calls."""
    script = document.script
    spot = script.spot(document.lines.place(params["item"]["selectionRange"]["start"]))
    if not spot:
        return []
    called = {}
    for it in script.pieces[spot.piece].names.uses:
        if it.sort == "call" and it.name in script.own["function"]:
            called.setdefault(it.name, []).append(it)
    return [
        {"to": item(document, script.own["function"][name]), "fromRanges": ranges(document, spot.piece, uses)}
        for name, uses in called.items()
    ]


def ranges(document, number, uses):
    places = [document.script.place_of(number, it.at, False, False) for it in uses]
    return [document.lines.range(it.start, it.end) for it in places]
