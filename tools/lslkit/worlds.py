"""World files: their lines' forms (docs/WORLDS.md), and a world as objects, prims, scripts and steps."""
import re
from collections import namedtuple

from .quoting import quoted, unquoted

KEY = re.compile(r"[0-9a-fA-F]{8}(-[0-9a-fA-F]{4}){3}-[0-9a-fA-F]{12}")
WORD = re.compile(r'[ \t]*(?:"(?P<quoted>(?:[^"\\]|\\.)*)"|(?P<open>".*)|(?P<plain>[^ \t]+))', re.S)
FORMS = {
    "object": ("KEY", "NAME", "OWNER", "REGION"),
    "prim": ("KEY", "NAME"),
    "script": ("NAME", "FILE"),
    "note": ("NAME", "FILE"),
    "begin": (),
    "end": (),
    "clock": ("MS",),
    "say": ("CHANNEL", "NAME", "KEY", "TEXT"),
    "touch": ("OBJECT", "LINK", "KEY", "NAME"),
    "changed": ("OBJECT", "FLAGS"),
    "rez": ("OBJECT", "N"),
    "go": ("SCRIPT", "TICKS"),
    "run": ("TICKS",),
    "pause": ("GAPS",),
    "cross": ("OBJECT", "REGION"),
}
DECLARED = ("object", "prim", "script", "note", "begin")
SIGNED = (-(2**31), 2**31 - 1)
RANGES = {
    "MS": (0, 2147483647999),
    "CHANNEL": SIGNED,
    "FLAGS": SIGNED,
    "N": SIGNED,
    "TICKS": (0, 1000000),
    "OBJECT": (0, 2**32 - 1),
    "SCRIPT": (0, 2**32 - 1),
    "LINK": (0, 2**32 - 1),
}

# A word of a line: its text, whether it was quoted, and the column of its first character.
Word = namedtuple("Word", "text is_quoted column")
Prim = namedtuple("Prim", "key name object link")
# A script or a notecard: its name, its file, its prim, and the line of the world file that names it.
Script = namedtuple("Script", "name file prim line")
Note = namedtuple("Note", "name file prim line")
Object = namedtuple("Object", "key name owner region prims")
# A step: its line, its first word, and the other words' texts.
Step = namedtuple("Step", "line word fields")
World = namedtuple("World", "objects scripts notes steps lines begin")


def form_of(first):
    """The form of the line that begins with this word."""
    return " ".join([first, *FORMS[first]])


def is_skipped(line):
    return not line.strip(" \t") or line.lstrip(" \t").startswith("#")


def words_of(line):
    """The words of a line; one with an open quote is plain, and keeps it."""
    words, at = [], 0
    for found in iter(lambda: WORD.match(line, at), None):
        text = found["quoted"]
        column = found.start(found.lastgroup) + (0 if text is None else -1)
        plain = found["open"] or found["plain"]
        words.append(Word(plain if text is None else unquoted(text), text is not None, column + 1))
        at = found.end()
    return words


def is_world(text):
    """Whether a text is meant as a world file."""
    return re.search(r"(?m)^[ \t]*begin[ \t]*\r?$", text) is not None


def wrong_word(line):
    """Which word of a line is wrong, as its column and the reason; nothing where the line has its form."""
    words = words_of(line)
    first, rest = words[0], words[1:]
    if first.is_quoted or first.text not in FORMS:
        return first.column, f"no line begins with `{first.text}`"
    fields = FORMS[first.text]
    if first.text == "pause":
        return wrong_gap(line, rest)
    for field, word in zip(fields, rest):
        reason = fault_of(field, word)
        if reason:
            return word.column, f"{field} is {reason}"
    if len(rest) > len(fields):
        return rest[len(fields)].column, "a word too many"
    if len(rest) < len(fields):
        return len(line.rstrip()) + 1, f"{fields[len(rest)]} is missing"
    return None


def wrong_gap(line, words):
    """Which gap of a `pause` is wrong, as its column and the reason. It takes up to 16 gaps, or 0 alone."""
    if not words:
        return len(line.rstrip()) + 1, "GAPS is missing"
    if len(words) == 1 and words[0].text == "0" and not words[0].is_quoted:
        return None
    for word in words:
        if word.text == "0" or fault_of("TICKS", word):
            return word.column, "a gap is a decimal number from 1 to 1000000, and 0 stands alone"
    return (words[16].column, "a gap too many: there are at most 16") if len(words) > 16 else None


def fault_of(field, word):
    """Why a word can't be a field, or nothing."""
    if field in ("NAME", "REGION", "FILE", "TEXT"):
        if not word.is_quoted:
            return "a text in double quotes" + (", and this one has no end" if word.text.startswith('"') else "")
        too_long = field != "TEXT" and len(word.text.encode(errors="surrogateescape")) > 255
        return "at most 255 bytes long" if too_long else None
    if field in ("KEY", "OWNER"):
        is_key = not word.is_quoted and KEY.fullmatch(word.text)
        return None if is_key else "36 characters without quotes, as 00000000-0000-0000-0000-0000000000d0"
    low, high = RANGES[field]
    is_number = not word.is_quoted and re.fullmatch(r"-?[0-9]+", word.text) and low <= int(word.text) <= high
    return None if is_number else f"a decimal number from {low} to {high}"


def lines_of(text):
    """The lines of a world file, without the carriage returns before their ends."""
    return [it[:-1] if it.endswith("\r") else it for it in text.split("\n")]


def read(text):
    """The world of a file's text. Lines that aren't in their form are passed over: the program refuses them."""
    lines = lines_of(text)
    objects, scripts, notes, steps, begin = [], [], [], [], None
    for number, line in enumerate(lines, 1):
        if is_skipped(line) or wrong_word(line):
            continue
        first, *rest = [it.text for it in words_of(line)]
        if first == "begin":
            begin = number
        elif first in DECLARED and begin:
            continue
        elif first == "object":
            objects.append(Object(rest[0].lower(), rest[1], rest[2], rest[3], []))
            objects[-1].prims.append(Prim(rest[0].lower(), rest[1], len(objects), 1))
        elif first == "prim" and objects:
            prims = objects[-1].prims
            prims.append(Prim(rest[0].lower(), rest[1], len(objects), len(prims) + 1))
        elif first == "script" and objects:
            scripts.append(Script(rest[0], rest[1], objects[-1].prims[-1], number))
        elif first == "note" and objects:
            notes.append(Note(rest[0], rest[1], objects[-1].prims[-1], number))
        elif first not in DECLARED and first != "end":
            steps.append(Step(number, first, rest))
    return World(objects, scripts, notes, steps, lines, begin)


def named(text):
    """The scripts and then the notecards of a world file, whose files are read."""
    world = read(text)
    return [*world.scripts, *world.notes]


def with_files(text, renamed):
    """The world file with the file of each script and notecard as `renamed` has it."""
    lines = text.split("\n")
    for it in named(text):
        line = lines[it.line - 1]
        file = words_of(line)[2]
        lines[it.line - 1] = f"{line[: file.column - 1]}{quoted(renamed(it))}"
    return "\n".join(lines)
