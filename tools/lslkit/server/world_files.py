"""World files: their lines, what the lines name, and the files."""
import os
import re

from .. import worlds
from ..words import table
from .documents import uri_of
from .positions import to_bytes, to_text

KEYWORD, FILE, VALUE = 14, 17, 12
OBJECT, PRIM, SCRIPT, NOTE, STEP = 19, 8, 2, 20, 24
SNIPPET = 2
QUOTED = ("NAME", "REGION", "FILE", "TEXT")
KEY = re.compile(rb"[0-9a-fA-F]{8}(?:-[0-9a-fA-F]{4}){3}-[0-9a-fA-F]{12}")


def does(word):
    """What a line does, in the words that tools share, or nothing where they aren't there."""
    try:
        said = table("steps")
    except OSError:
        return ""
    row = said["declarations"].get(word) or said["steps"].get(word) or {}
    words = row.get("does", "")
    return f"{words[:1].upper()}{words[1:]}." if words else ""


class Line:
    """A line of a world file, its words, and the number of the one at a place."""

    def __init__(self, document, number, place=None):
        self.document, self.number = document, number
        self.start = document.lines.starts[number]
        self.text = to_text(document.lines.line(number))
        self.words = [] if worlds.is_skipped(self.text) else worlds.words_of(self.text)
        self.at = None
        for at, _ in enumerate(self.words):
            first, last = self.span(at)
            if place is not None and first <= place <= last:
                self.at = at

    def span(self, at):
        """The bytes of a word, with its quotes."""
        first = self.words[at].column - 1
        last = self.words[at + 1].column - 1 if at + 1 < len(self.words) else len(self.text)
        written = self.text[first:last].rstrip()
        start = self.start + len(to_bytes(self.text[:first]))
        return start, start + len(to_bytes(written))

    @property
    def first(self):
        return self.words[0].text if self.words else ""

    @property
    def field(self):
        """The field of the form that the word at the place fills."""
        fields = worlds.FORMS.get(self.first, ())
        return fields[self.at - 1] if self.at and self.at <= len(fields) else ""


def line_at(document, params):
    place = document.lines.place(params["position"])
    return Line(document, document.lines.line_of(place), place)


def range_of_line(document, number):
    """The range of a line, by its number from 1."""
    start = document.lines.starts[number - 1]
    return document.lines.range(start, start + len(document.lines.line(number - 1)))


# Hover


def hover(document, params):
    line = line_at(document, params)
    if line.at is None or line.first not in worlds.FORMS:
        return None
    said = of_word(document, line)
    return {"contents": {"kind": "markdown", "value": said}, "range": document.lines.range(*line.span(line.at))}


def of_word(document, line):
    form = f"```\n{worlds.form_of(line.first)}\n```\n{does(line.first)}"
    named = None if line.at == 0 else named_by(document, line)
    return f"{named}\n\n{form}" if named else form


def named_by(document, line):
    """What a word of a line names, in words."""
    world, word = document.world, line.words[line.at].text
    if line.field in ("OBJECT", "SCRIPT") and word.isdigit():
        rows = world.objects if line.field == "OBJECT" else world.scripts
        if 0 < int(word) <= len(rows):
            return f"{line.field.lower()} {word} is `{rows[int(word) - 1].name}`"
    if line.field in ("KEY", "OWNER"):
        prims = [it for row in world.objects for it in row.prims if it.key == word.lower()]
        return f"the prim `{prims[0].name}`" if prims else None
    if line.field == "MS" and word.isdigit():
        return f"{int(word) / 1000:,} seconds after the start"
    return None


# Definition, references, links


def definition(document, params):
    line = line_at(document, params)
    if line.at is None or line.at == 0:
        return None
    world, word = document.world, line.words[line.at].text
    if line.field == "FILE":
        path = file_of(document, word)
        start = {"line": 0, "character": 0}
        return {"uri": uri_of(path), "range": {"start": start, "end": start}} if path else None
    number = line_of_named(world, line.field, word)
    return {"uri": document.uri, "range": range_of_line(document, number)} if number else None


def line_of_named(world, field, word):
    """The line of the object, script or key that a word names, from 1; nothing where there is none."""
    if field == "SCRIPT" and word.isdigit() and 0 < int(word) <= len(world.scripts):
        return world.scripts[int(word) - 1].line
    if field == "OBJECT" and word.isdigit() and 0 < int(word) <= len(world.objects):
        return line_of_key(world, world.objects[int(word) - 1].key)
    return line_of_key(world, word.lower()) if field in ("KEY", "OWNER") else None


def line_of_key(world, key):
    for number, line in enumerate(world.lines, 1):
        words = [] if worlds.is_skipped(line) else worlds.words_of(line)
        if len(words) > 1 and words[0].text in ("object", "prim") and words[1].text.lower() == key:
            return number
    return None


def file_of(document, name):
    """The path of a file that a world names: from the workspace's folder, or from one above the world's."""
    folders = [document.folder] if document.folder else []
    folder = os.path.dirname(document.path) if document.path else None
    while folder:
        folders.append(folder)
        folder = None if folder == os.path.dirname(folder) else os.path.dirname(folder)
    return next((it for it in (os.path.join(folder, name) for folder in folders) if os.path.isfile(it)), None)


def references(document, params):
    """All places of the key under the cursor."""
    line = line_at(document, params)
    if line.at is None or line.field not in ("KEY", "OWNER"):
        return None
    return [{"uri": document.uri, "range": it} for it in ranges_of_key(document, line.words[line.at].text)]


def ranges_of_key(document, key):
    wanted = key.lower().encode(errors="replace")
    found = [it for it in KEY.finditer(document.text) if it[0].lower() == wanted]
    return [document.lines.range(it.start(), it.end()) for it in found]


def highlights(document, params):
    return [{"range": it["range"]} for it in references(document, params) or []]


def links(document, _):
    found = []
    for it in [*document.world.scripts, *document.world.notes]:
        path = file_of(document, it.file)
        if path:
            line = Line(document, it.line - 1)
            found.append({"range": document.lines.range(*line.span(2)), "target": uri_of(path)})
    return found


# Completion


def complete(document, params, has_snippets):
    place = document.lines.place(params["position"])
    line = Line(document, document.lines.line_of(place))
    before = to_text(document.text[line.start : place])
    if before.lstrip(" \t").startswith("#"):
        return {"isIncomplete": False, "items": []}
    written = worlds.words_of(before)
    count = len(written) - (bool(before.strip()) and not before.endswith((" ", "\t")))
    if count <= 0:
        return {"isIncomplete": False, "items": [first_word(it, has_snippets) for it in fitting(document, line.number)]}
    fields = worlds.FORMS.get(written[0].text, ())
    field = fields[count - 1] if count - 1 < len(fields) else ""
    return {"isIncomplete": False, "items": values_of(document, written[0].text, field)}


def fitting(document, number):
    """The words with which a line may begin here."""
    begin = document.world.begin
    if begin is not None and number + 1 > begin:
        return [it for it in worlds.FORMS if it not in worlds.DECLARED]
    return list(worlds.FORMS)


def first_word(word, has_snippets):
    made = {"label": word, "kind": KEYWORD, "detail": worlds.form_of(word)}
    made["documentation"] = {"kind": "markdown", "value": does(word)}
    fields = worlds.FORMS[word]
    if has_snippets and fields:
        places = [f'"${{{at}:{it}}}"' if it in QUOTED else f"${{{at}:{it}}}" for at, it in enumerate(fields, 1)]
        made.update(insertText=" ".join([word, *places]), insertTextFormat=SNIPPET)
    return made


def values_of(document, word, field):
    world, found = document.world, []
    if field in ("KEY", "OWNER") and word not in ("object", "prim") or field == "OWNER":
        prims = {prim.key: prim.name for it in world.objects for prim in it.prims}
        people = {it.fields[2]: it.fields[1] for it in world.steps if it.word == "say"}
        people.update((it.fields[2], it.fields[3]) for it in world.steps if it.word == "touch")
        found = [(key, name) for key, name in {**prims, **people}.items()]
    elif field == "OBJECT":
        found = [(str(number), it.name) for number, it in enumerate(world.objects, 1)]
    elif field == "SCRIPT":
        found = [(str(number), it.name) for number, it in enumerate(world.scripts, 1)]
    return [{"label": text, "kind": VALUE, "detail": name} for text, name in found]


# Symbols and folding


def symbols(document, _):
    found, numbers = [], {}
    for number, text in enumerate(document.world.lines, 1):
        words = [] if worlds.is_skipped(text) or worlds.wrong_word(text) else worlds.words_of(text)
        first = words[0].text if words else ""
        if first == "object":
            found.append(symbol(document, number, words[2].text, OBJECT))
        elif first == "prim" and found:
            found[-1]["children"].append(symbol(document, number, words[2].text, PRIM))
        elif first in ("script", "note") and found:
            sort = SCRIPT if first == "script" else NOTE
            prims = [it for it in found[-1]["children"] if it["kind"] == PRIM]
            (prims[-1] if prims else found[-1])["children"].append(symbol(document, number, words[1].text, sort))
        elif first == "begin" or first not in worlds.DECLARED and first:
            numbers.setdefault("first", number)
            numbers["last"] = number
    return [grown(it) for it in [*found, *steps_of(document, numbers)]]


def steps_of(document, numbers):
    if not numbers:
        return []
    made = symbol(document, numbers["first"], "steps", STEP)
    made["range"]["end"] = range_of_line(document, numbers["last"])["end"]
    return [made]


def symbol(document, number, name, kind):
    place = range_of_line(document, number)
    return {"name": name or "(no name)", "kind": kind, "range": dict(place), "selectionRange": place, "children": []}


def grown(made):
    """A symbol whose range holds those of its children."""
    for it in made["children"]:
        made["range"]["end"] = grown(it)["range"]["end"]
    return made


def folding(document, _):
    """Objects with what they have, and comments of several lines."""
    found = [(it["range"]["start"]["line"], it["range"]["end"]["line"], None) for it in symbols(document, None)]
    first = None
    for number, text in enumerate([*document.world.lines, ""]):
        is_comment = text.lstrip(" \t").startswith("#")
        if is_comment and first is None:
            first = number
        elif not is_comment and first is not None:
            found.append((first, number - 1, "comment"))
            first = None
    made = [{"startLine": start, "endLine": end, "kind": kind} for start, end, kind in found if start < end]
    return [{key: it for key, it in row.items() if it is not None} for row in made]
