"""The lines that refuse a script, a world file, a notecard or a frozen world, said in words; the first two with the
line and a caret, a notecard's with the line."""
import hashlib
import re

from . import places, reporting, world_hints, worlds
from .quoting import unquoted
from .reporting import meaning, meaning_with, said_at, with_window

REFUSAL = re.compile(r'bad (\w+) "((?:[^"\\]|\\.)*)" (?:line (\d+) |(\d+):(\d+) )?fault (\d+)(.*)')


def explained(line, scripts=(), check=None):
    """The words for a line that refuses a file; nothing for any other line. `scripts` are the files of the scripts of
    the world over which a frozen one was to be thawed. With `check`, which gives a text's first fault, all faults of a
    script are said."""
    refusal = REFUSAL.fullmatch(line)
    if not refusal:
        return None
    sort, name, number, row, column, fault, more = refusal.groups()
    name, fault = unquoted(name), int(fault)
    if sort == "image":
        hints = image_hint(name, fault, more.split(), scripts)
        means = meaning(fault).split(", or ")[0] if hints else meaning(fault)
        return f"{name}:1:1: error: {'; '.join([means, *hints])} (fault {fault})"
    if number is None and row is None:
        return f"{name}:1:1: error: {meaning(fault)}{more} (fault {fault})"
    text = places.bytes_of(name)
    if sort == "script":
        return of_script(name, text, (int(row), int(column), fault), check)
    if sort == "note":
        return with_line(name, text, int(number), 1, fault, [])
    world = (text or b"").decode(errors="surrogateescape")
    column, hints = world_hints.hint(fault, world, int(number))
    return with_line(name, text, int(number), column, fault, hints)


def image_hint(name, fault, details, scripts):
    """What the details of a frozen world's fault tell, and what the file is that is none."""
    if fault == 40:
        found, wanted = details
        short = int(found) < 46
        return [f"it has {found} bytes, and {'the shortest has 46' if short else f'names {wanted}'}"]
    if fault == 42:
        return [f"it has version {details[0]}"]
    if fault == 43:
        names = [it for it in dict.fromkeys(scripts) if digest_of(it) == details[1]]
        return [f"frozen under another text of {it}" for it in names]
    if fault == 45:
        return unfrozen_hint(places.bytes_of(name) or b"")
    return [f"at byte {details[0]}"] if fault == 44 else []


def unfrozen_hint(text):
    """Why the last line of a text isn't that of a frozen world."""
    lines = (text[:-1] if text.endswith(b"\n") else text).split(b"\n")
    frozen = [number for number, line in enumerate(lines, 1) if line.startswith(b"frozen ")]
    if not text:
        return ["the file is empty"]
    if not frozen:
        is_world = worlds.is_world(text.decode(errors="surrogateescape"))
        return ["it is a world file: the frozen world is named first" if is_world else "no line begins with `frozen `"]
    if frozen[-1] < len(lines):
        return [f"line {frozen[-1]} is that of a frozen world, and more lines follow it"]
    if lines[-1].endswith(b"\r"):
        return ["its lines end in a carriage return: save the file with Unix line ends"]
    wrong = re.search(rb"[^0-9a-f]", lines[-1][len(b"frozen ") :])
    if wrong:
        return [f"`{wrong[0].decode(errors='replace')}` in its last line is no digit of 0 to 9 and a to f"]
    return ["its last line has an odd number of digits"]


def digest_of(name):
    return hashlib.sha256(places.bytes_of(name) or b"").hexdigest()


def of_script(name, text, first, check):
    """The words for a script whose first fault is known, and with `check` for all its faults."""
    if text is None:
        return said_at(name, *first[:2], f"{meaning(first[2])} (fault {first[2]})")
    is_same = check is not None and check(text) == first
    return reporting.report(name, text, check) if is_same else reporting.report_first(name, text, *first)


def with_line(name, text, row, column, fault, hints):
    """The words in the form that editors read, the line of the file, and a caret below."""
    said = said_at(name, row, column, f"{'; '.join([meaning_with(fault, hints), *hints])} (fault {fault})")
    return said if text is None else with_window(said, text, row, column)
