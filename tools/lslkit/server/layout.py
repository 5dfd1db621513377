"""Formatting: the edits of `lslkit.formatting`, as the protocol has them."""
from .. import formatting
from .errors import Refused

# What is around a piece that isn't whole by itself.
AROUND = {"handler": (b"default {", b"}"), "close": (b"default {", b"")}


def unit_of(options):
    size = options.get("tabSize", 4)
    is_blank = options.get("insertSpaces", True)
    return b" " * max(1, min(int(size), 16)) if is_blank else b"\t"


def edits(document, params):
    try:
        found = formatting.edits(document.text, unit_of(params.get("options", {})))
    except formatting.Unformatted as error:
        raise Refused(f"the script keeps its layout: {error}") from None
    return [as_message(document, it) for it in found]


def as_message(document, it):
    return {"range": document.lines.range(it.start, it.end), "newText": it.text.decode()}


def whole(document, params):
    return edits(document, params)


def part(document, params):
    """The edits in the lines of a range."""
    first, last = (params["range"][key]["line"] for key in ("start", "end"))
    return [it for it in edits(document, params) if first <= it["range"]["end"]["line"] <= last]


def as_typed(document, params):
    """The indentation of the line on which a `}` was written; nothing where its piece isn't whole. Only the piece is
    laid out: a handler within a state of its own."""
    script, place = document.script, document.lines.place(params["position"])
    line = document.lines.line_of(place)
    number = script.piece_at(max(0, place - 1))
    piece, start = script.pieces[number], script.starts[number]
    before, after = AROUND.get(piece.sort, (b"", b""))
    try:
        found = formatting.edits(before + piece.text + after, unit_of(params.get("options", {})))
    except formatting.Unformatted:
        return []
    moved = [it._replace(start=it.start + start - len(before), end=it.end + start - len(before)) for it in found]
    # A line's indentation begins after the feed before it.
    first = document.lines.starts[line]
    kept = [it for it in moved if it.start < first <= it.end <= place and b"\n" in it.text]
    indents = [formatting.Edit(first, it.end, it.text.rpartition(b"\n")[2]) for it in kept]
    return [as_message(document, it) for it in indents]
