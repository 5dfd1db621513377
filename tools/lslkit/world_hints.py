"""What helps to mend a world file's first fault: the wrong word, the line's form, what a key clashes with."""
import re

from . import worlds
from .tables import nearest

LIMITS = {"object": "64 objects", "prim": "255 prims an object", "script": "256 scripts", "note": "256 notecards"}


def hint(fault, text, number):
    """The column, in bytes, and the hints for a fault at a line."""
    lines = worlds.lines_of(text)
    line = lines[number - 1] if 0 < number <= len(lines) else ""
    rule = HINTS.get(fault)
    column, hints = rule(text, number, line) if rule and line.strip() else (1, [])
    return len(line[: column - 1].encode(errors="surrogateescape")) + 1, hints


def bad_form(text, number, line):
    if line.startswith("\ufeff"):
        return 1, ["an invisible mark is before the first word: save the file without a byte order mark"]
    wrong = worlds.wrong_word(line)
    first = worlds.words_of(line)[0].text
    if wrong:
        near = nearest(first, worlds.FORMS)
        form = f"do you mean {near}?" if near else "a line begins with " + ", ".join(worlds.FORMS)
        return wrong[0], [wrong[1], f"the form is `{worlds.form_of(first)}`" if first in worlds.FORMS else form]
    begin = next((it for it, row in enumerate(worlds.lines_of(text), 1) if row.split() == ["begin"]), None)
    is_behind = begin is not None and number > begin
    if first == "begin" and is_behind:
        return 1, [f"line {begin} is `begin` already"]
    if first in worlds.DECLARED and is_behind:
        return 1, [f"`{first}` comes before `begin`, which is line {begin}"]
    if first in ("prim", "script", "note"):
        return 1, [f"`{first}` comes after an `object`"]
    if first not in worlds.DECLARED and not is_behind:
        return 1, ["a step comes after `begin`"]
    return 1, ["nothing comes after `end`"] if is_behind else []


def no_such_number(text, _, line):
    world = worlds.read(text)
    words = worlds.words_of(line)
    first, field = words[0].text, int(words[1].text)
    if first == "go":
        return words[1].column, [f"the world has {counted(len(world.scripts), 'script')}, numbered from 1"]
    if not 1 <= field <= len(world.objects):
        return words[1].column, [f"the world has {counted(len(world.objects), 'object')}, numbered from 1"]
    prims = world.objects[field - 1].prims
    return words[2].column, [f"object {field} has {counted(len(prims), 'prim')}; 0 and 1 name its root"]


def counted(number, noun):
    return f"{number} {noun}" + ("" if number == 1 else "s")


def beyond_limit(_, __, line):
    first = worlds.words_of(line)[0].text
    return 1, [f"a world has at most {LIMITS.get(first, '100,000 steps')}"]


def earlier_clock(text, number, line):
    before = [it for it in worlds.read(text).steps if it.word == "clock" and it.line < number]
    column = worlds.words_of(line)[1].column
    return column, [f"line {before[-1].line} has {before[-1].fields[0]}"] if before else []


def taken_key(text, number, line):
    key = worlds.words_of(line)[1]
    for earlier, row in enumerate(worlds.lines_of(text)[: number - 1], 1):
        if re.match(r"[ \t]*(object|prim)[ \t]+%s\b" % re.escape(key.text), row, re.I):
            return key.column, [f"line {earlier} has it already"]
    return key.column, []


HINTS = {50: bad_form, 53: no_such_number, 54: beyond_limit, 55: earlier_clock, 57: taken_key}
