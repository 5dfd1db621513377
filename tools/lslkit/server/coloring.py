"""Semantic tokens: what each name is, which colours by words can't know."""
from ..tokens import TYPES
from .outlining import COMMENT
from .positions import Lines, units

TYPE_NAMES = (
    "keyword", "type", "function", "event", "variable", "parameter", "enumMember", "namespace", "label", "string",
    "number", "operator", "comment",
)  # fmt: skip
MODIFIERS = ("declaration", "readonly", "defaultLibrary", "modification")
LEGEND = {"tokenTypes": list(TYPE_NAMES), "tokenModifiers": list(MODIFIERS)}
OF_DECLARED = {"global": "variable", "handler": "event", "state": "namespace"}
OF_MEANING = {
    "global": ("variable", ()),
    "function": ("function", ()),
    "state": ("namespace", ()),
    "call": ("function", ("defaultLibrary",)),
    "constant": ("enumMember", ("readonly", "defaultLibrary")),
}
OF_SORT = {"integer": "number", "string": "string"}


def semantic_tokens(document, params):
    lines, script = document.lines, document.script
    first, last = 0, len(document.text) + 1
    if "range" in params:
        first, last = (lines.place(params["range"][key]) for key in ("start", "end"))
    data, before = [], (0, 0)
    for number, start in enumerate(script.starts):
        if start < last and start + len(script.pieces[number].text) > first:
            marked, end = encoded(script, number)
            if marked:
                place = lines.position(start)
                before = joined(data, marked, (place["line"], place["character"]), before, end)
    return {"data": data}


def joined(data, marked, start, before, end):
    """Adds the numbers of a piece that starts at a position. `before` is where the last mark was; it gives that of the
    piece's last one."""
    line, character = start[0] + marked[0], marked[1] + (0 if marked[0] else start[1])
    data += [line - before[0], character - before[1] if line == before[0] else character]
    data += marked[2:]
    return start[0] + end[0], end[1] + (0 if end[0] else start[1])


def encoded(script, number):
    """The marks of a piece as five numbers each, the first one's place from the piece's start, and the last one's
    place. They are kept while the script has the same globals, functions and states."""
    piece, own = script.pieces[number], script.own_names
    if getattr(piece, "marked", (None,))[0] != own:
        piece.marked = (own, *encoded_marks(Lines(piece.text), marks_of(script, number)))
    return piece.marked[1:]


def marks_of(script, number):
    """The marks of a piece in the order of its text: first and last byte, type and modifiers."""
    piece, named = script.pieces[number], names_of(script, number)
    found = []
    for at, token in enumerate(piece.tokens):
        if at in named:
            found.append((token.place, token.end, *named[at]))
        elif token.sort in OF_SORT:
            found.append((token.place, token.end, OF_SORT[token.sort], ()))
        elif token.sort == "word":
            found.append((token.place, token.end, "type" if token.text in TYPES else "keyword", ()))
    last = 0
    for token in piece.tokens:
        found += [(it.start(), it.end(), "comment", ()) for it in COMMENT.finditer(piece.text, last, token.place)]
        last = token.end
    return sorted(found)


def names_of(script, number):
    """For the tokens of a piece that are names what they are."""
    names, found = script.pieces[number].names, {}
    for it in names.declared:
        sort = it.sort if it.sort in ("parameter", "variable", "function", "label") else OF_DECLARED[it.sort]
        found[it.at] = (sort, ("declaration",))
    for it in names.uses:
        meaning = script.meaning_of(number, it)
        modifiers = ("modification",) if it.is_written else ()
        if meaning.sort == "local":
            found[it.at] = (names.declared[meaning.declared].sort, modifiers)
        elif meaning.sort in OF_MEANING:
            sort, own = OF_MEANING[meaning.sort]
            found[it.at] = (sort, (*own, *modifiers))
    return found


def encoded_marks(lines, marks):
    """Marks as five numbers each, those over several lines one a line, and the place of the last."""
    data, line, character = [], 0, 0
    for start, end, sort, modifiers in marks:
        bits = sum(1 << MODIFIERS.index(it) for it in modifiers)
        for row, column, length in parts(lines, start, end):
            data += [row - line, column if row > line else column - character, length, TYPE_NAMES.index(sort), bits]
            line, character = row, column
    return data, (line, character)


def parts(lines, start, end):
    """A mark's parts, a line each."""
    row = lines.line_of(start)
    while start < end:
        stop = lines.starts[row + 1] if row + 1 < len(lines.starts) else len(lines.text)
        piece = lines.text[start : min(end, stop)].rstrip(b"\r\n")
        if piece:
            yield row, units(lines.text[lines.starts[row] : start]), units(piece)
        start, row = stop, row + 1
