"""Quoted texts of world files and journals, and the part of a line that a fault is in."""
import re

QUOTED = r'"((?:[^"\\]|\\.)*)"'
WIDTH = 110


def quoted(text):
    return '"%s"' % text.replace("\\", "\\\\").replace('"', '\\"').replace("\n", "\\n")


def unquoted(text):
    """The text between a quoted text's quotes."""
    return re.sub(r"\\(.)", lambda it: "\n" if it[1] == "n" else it[1], text)


def window(line, column):
    """The part of a line around a byte, and below it a caret at that byte."""
    before, behind = (part.decode(errors="replace") for part in (line[: column - 1], line[column - 1 :]))
    cut = max(0, len(before) - WIDTH // 2)
    shown = ("" if cut == 0 else ".. ") + before[cut:]
    rest = behind.rstrip("\r")
    blanks = re.sub(r"[^\t]", " ", shown)
    return f"{shown}{rest[: WIDTH - len(shown)]}\n{blanks}^"
