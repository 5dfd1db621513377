"""All faults and warnings of a script as lines, in the form that editors read: what this language lacks is gathered,
and said first."""
import re

from . import findings, lacking, tokens, warned, words
from .quoting import window


def meaning(fault):
    """What a fault means, which is also the second column of its row in docs/LANGUAGE.md."""
    row = words.table("faults").get(str(fault))
    return row["says"] if row else "a fault without words"


def meaning_with(fault, hints):
    """The same beside hints: where a fault has several meanings, they say which one it is."""
    return re.split("[;:]", meaning(fault))[0] if hints else meaning(fault)


def said_at(name, row, column, said, severity="error"):
    return f"{name}:{max(row, 1)}:{column}: {severity}: {said}"


def with_window(said, text, row, column):
    lines = text.split(b"\n")
    is_shown = 0 < row <= len(lines) and b"\0" not in lines[row - 1]
    return f"{said}\n{window(lines[row - 1], column)}" if is_shown else said


def ordered(found):
    """The first fault, what is lacking, and the others in the order of their places."""
    return sorted(found, key=lambda it: (not it.is_first, rank(it), it.start))


def rank(finding):
    return lacking.GROUPS.index(finding.group) if finding.group else len(lacking.GROUPS)


def hints_of(finding, text):
    """A fault's hints, with the lines of its further places."""
    if finding.group:
        return lacking.hints_of(finding, text)
    where = lacking.lines_of([start for start, _, _ in finding.more], text)
    return [*finding.hints, *([] if where.startswith("line ") else [where])]


def words_of(finding, text):
    """What a fault means, where what is lacking doesn't say it, and its hints."""
    hints = hints_of(finding, text)
    is_lacking = finding.group in ("vector", "event", "call", "constant")
    return hints if is_lacking else [meaning_with(finding.fault, hints), *hints]


def report(name, text, check):
    """The lines for all faults of a text."""
    return "\n".join(of_finding(name, text, it) for it in ordered(findings.of(text, check)))


def report_warnings(name, text):
    """The lines for the warnings of a text."""
    return "\n".join(of_warning(name, text, it) for it in warned.of(text))


def of_warning(name, text, warning):
    row, column = place_of(text, warning.start)
    said = f"{'; '.join(warned.words_of(warning))} ({warning.name})"
    return with_window(said_at(name, row, column, said, "warning"), text, row, column)


def place_of(text, place):
    lines = tokens.Lines(text)
    row = lines.line_of(place)
    return row, place - lines.starts[row - 1] + 1


def report_first(name, text, line, column, fault):
    """The lines for the first fault of a text."""
    return of_finding(name, text, findings.single(text, line, column, fault))


def of_finding(name, text, finding):
    row, column = place_of(text, finding.start)
    rest = "" if finding.is_first else " of the rest"
    said = f"{'; '.join(words_of(finding, text))} (fault {finding.fault}{rest})"
    shown = with_window(said_at(name, row, column, said), text, row, column)
    return "\n".join([shown, *(f"    {it}" for it in lacking.pasted(finding))])
