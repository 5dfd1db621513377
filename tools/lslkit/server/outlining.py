"""Symbols, folding and growing selections."""
import re

from .positions import Lines

FUNCTION, VARIABLE, NAMESPACE, EVENT = 12, 13, 3, 24
COMMENT = re.compile(rb"//[^\n]*|/\*.*?(?:\*/|\Z)", re.S)


def symbols(document, _):
    script, found, states = document.script, [], dict(document.script.states())
    inside = {it for numbers in states.values() for it in numbers}
    for number, piece in enumerate(script.pieces):
        declared = script.declared_by(piece)
        if number in states:
            found.append(state_symbol(document, number, states[number]))
        elif number not in inside and declared and declared.sort in ("global", "function"):
            found.append(symbol(document, number, number))
    return found


def state_symbol(document, number, inside):
    last = inside[-1] if len(inside) else number
    made = symbol(document, number, last)
    handlers = [it for it in inside if document.script.declared_by(document.script.pieces[it])]
    made["children"] = [symbol(document, it, it) for it in handlers]
    return made


def symbol(document, number, last):
    """The symbol of a piece, which reaches to the end of another one."""
    script = document.script
    piece, declared = script.pieces[number], script.declared_by(script.pieces[number])
    place = script.place_of(number, declared.at, True, False)
    start = script.starts[number] + piece.tokens[0].place
    end = max(place.end, script.starts[last] + last_end(script.pieces[last]))
    kind = {"global": VARIABLE, "function": FUNCTION, "state": NAMESPACE, "handler": EVENT}[declared.sort]
    made = {"name": declared.name, "kind": kind, "range": document.lines.range(start, end)}
    made["selectionRange"] = document.lines.range(place.start, place.end)
    params = ", ".join(f"{it.kind} {it.name}" for it in script.params_of(piece, declared))
    detail = {"global": declared.kind, "state": ""}.get(declared.sort, f"({params})")
    return {**made, "detail": detail} if detail else made


def last_end(piece):
    """The end of a piece's last token."""
    return piece.tokens[-2].end if len(piece.tokens) > 1 else 0


# Folding


def folding(document, _):
    script, found = document.script, []
    rows = [document.lines.line_of(it) for it in script.starts]
    for row, piece in zip(rows, script.pieces):
        if not hasattr(piece, "folds"):
            piece.folds = folds_of(piece)
        found += [fold(row + first, row + last, kind) for first, last, kind in piece.folds]
    for number, inside in script.states():
        last = inside[-1] if len(inside) else number
        first = document.lines.line_of(script.starts[number] + last_end(script.pieces[number]))
        end = document.lines.line_of(script.starts[last] + last_end(script.pieces[last])) - 1
        found += [fold(first, end, None)] if first < end else []
    return found


def fold(first, last, kind):
    return {"startLine": first, "endLine": last, **({"kind": kind} if kind else {})}


def folds_of(piece):
    """What folds within a piece: lines from its start, and the kind."""
    lines, opened, found = Lines(piece.text), [], []
    for token in piece.tokens:
        if token.sort == "sign" and token.text in "{[(":
            opened.append(lines.line_of(token.place))
        elif token.sort == "sign" and token.text in "}])" and opened:
            first, last = opened.pop(), lines.line_of(token.place) - 1
            found += [(first, last, None)] if first < last else []
    return found + comments_of(lines, piece)


def comments_of(lines, piece):
    """The comments of a piece that take several lines, and several that follow one another, a line each."""
    found, run, last = [], [], 0
    for token in piece.tokens:
        for it in COMMENT.finditer(piece.text, last, token.place):
            first, end = lines.line_of(it.start()), lines.line_of(it.end() - 1)
            if run and first != run[-1] + 1:
                found += folded(run)
                run = []
            run += [first, end]
        found += folded(run)
        run, last = [], token.end
    return found


def folded(run):
    return [(run[0], run[-1], "comment")] if run and run[-1] > run[0] else []


# Growing selections


def selections(document, params):
    return [selection(document, document.lines.place(it)) for it in params["positions"]]


def selection(document, place):
    """The ranges around a place, the smallest first: its token, what is between brackets, its piece, all."""
    script = document.script
    around = {(0, len(document.text))}
    if script.pieces:
        number = script.piece_at(place)
        start, tokens = script.starts[number], script.pieces[number].tokens
        around.add((start + tokens[0].place, start + last_end(script.pieces[number])))
        around |= {(start + first, start + last) for first, last in brackets(tokens)}
        spot = script.spot(place)
        around |= {(spot.start, spot.end)} if spot else set()
    made, outer = None, (0, len(document.text))
    for first, last in sorted((it for it in around if it[0] <= place <= it[1]), key=lambda it: it[0] - it[1]):
        if outer[0] <= first and last <= outer[1]:
            made = {"range": document.lines.range(first, last), **({"parent": made} if made else {})}
            outer = first, last
    return made


def brackets(tokens):
    opened = []
    for token in tokens:
        if token.sort == "sign" and token.text in "{[(":
            opened.append(token)
        elif token.sort == "sign" and token.text in "}])" and opened:
            yield opened[-1].end, token.place
            yield opened.pop().place, token.end
