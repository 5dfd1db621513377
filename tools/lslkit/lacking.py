"""What LSL has and this language hasn't: under what it is gathered, what takes its place, and what is to be pasted.
The table is tools/words/substitutes.json."""
import re

from . import script_hints, tables, tokens, words
from .repairs import FOREIGN, NUMBER

# The order in which they are said.
GROUPS = ("vector", "float", "point", "event", "call", "constant")


def group_of(fault, source):
    """What a fault is gathered under, and the name that is lacking."""
    if fault == 4:
        return "point", ""
    word = source.tokens[source.at].text
    if fault == 12:
        return ("float", "") if word == "float" else ("vector", "")
    if fault == 5 and re.match(rb"\.[xyzs]\b(?!\s*\()", source.text[source.place :]):
        return "vector", ""
    sort = tables.known_to_lsl().get(word)
    if fault in (20, 30) and sort in GROUPS and not tables.is_here(word):
        return sort, word
    return None, None


def written(source):
    """The number with a point at the fault, and the whole number in its place; else nothing."""
    found = NUMBER.match(source.text, source.place)
    if not found or b"." not in found[0] or not re.search(rb"[0-9]", found[0]):
        return None
    return found[0].decode(), script_hints.whole_number(source)


def fix_title(fault, source):
    """What an editor says of the mending of a fault; nothing where a reader has to decide."""
    word = source.tokens[source.at].text
    if fault == 4 and script_hints.whole_number(source) is not None:
        return f"Write {script_hints.whole_number(source)}"
    if fault == 12 and word in FOREIGN:
        return "Write integer" if word == "float" else None
    if fault == 5:
        return "Mend the character"
    if fault == 10 and script_hints.sign_missing(source)[1]:
        return f"Insert {script_hints.sign_missing(source)[0]}"
    return None


def lines_of(places, text):
    """Line numbers in words: `line 3`, `lines 2 to 4, 9`."""
    lines = tokens.Lines(text)
    numbers = sorted({lines.line_of(it) for it in places})
    runs = []
    for number in numbers:
        if runs and number == runs[-1][1] + 1:
            runs[-1][1] = number
        else:
            runs.append([number, number])
    return f"line{'' if len(numbers) == 1 else 's'} {', '.join(run_of(*it) for it in runs)}"


def run_of(first, last):
    if first == last:
        return str(first)
    return f"{first}, {last}" if last == first + 1 else f"{first} to {last}"


def substitute(name):
    """What takes the place of a name that LSL has, as its row of the table: `write` what to do, and perhaps the
    `function` to paste."""
    table = words.table("substitutes")
    if name in table["names"]:
        return table["names"][name]
    sort = tables.known_to_lsl().get(name)
    families = (row for pattern, row in table["families"].items() if sort == "call" and re.match(pattern, name))
    return next(families, table["others"].get(sort))


def hints_of(finding, text):
    """The hints for a fault that is gathered, with the lines of all its places."""
    places = [start for start, _, _ in finding.more]
    where = lines_of(places, text)
    is_one = where.startswith("line ")
    if finding.group == "point":
        pairs = dict.fromkeys(it for _, _, it in finding.more if it)
        whole = ", ".join(f"{new} for {old}" for old, new in pairs)
        several = [f"only whole numbers are in the language, {where}: write {whole}"]
        return finding.hints if is_one and len(pairs) < 2 else several
    if finding.group in ("vector", "float"):
        kind = [words.table("substitutes")["others"]["vector"]["write"]] if finding.group == "vector" else finding.hints
        return [*kind, *([] if is_one else [where])]
    row = substitute(finding.name)
    said = f"LSL has the {finding.group} {finding.name}, and this language hasn't: {row['write']}"
    return [said] if is_one else [said, where]


def pasted(finding):
    """The function or the global that may be pasted, as lines; none where there is none."""
    row = substitute(finding.name) if finding.name else None
    return row.get("function", []) if row else []


def before_states(text):
    """The byte before the first state, where a function can be pasted."""
    state = next((it for it in tokens.cut(text) if it.text == "default"), None)
    return 0 if state is None else text.rfind(b"\n", 0, state.place) + 1
