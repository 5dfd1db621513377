"""What is wrong with a script's text, for editors, the page and the terminal: each fault and each warning with the
bytes that it covers, its words, hints and fixes. The words are those of tools/words."""
from collections import namedtuple

from . import findings, lacking, reporting, warned

# Edits are tuples: the first byte, the one after the last, and the new text as bytes.
Fix = namedtuple("Fix", "title edits")
Related = namedtuple("Related", "start end words")
# `severity` is `error` or `warning`; `code` a fault's number as text, or a warning's name. `start` and `end` are
# bytes. `is_first` says that it is the program's first fault of the whole text.
Diagnostic = namedtuple("Diagnostic", "severity code start end words hints related fixes is_first")


def of(text, check):
    """All faults in the order of their places, or else the warnings. `check(text)` gives the program's first fault of a
    text as its line, its column and its number, or nothing."""
    found = [diagnostic for it in findings.of(text, check) for diagnostic in of_finding(it, text)]
    return sorted(found, key=lambda it: (it.start, it.end)) or [of_warning(it) for it in warned.of(text)]


def of_warning(warning):
    said, hint = warned.words_of(warning)
    related = [Related(start, end, "this one") for start, end in warning.related]
    return Diagnostic("warning", warning.name, warning.start, warning.end, said, [hint], related, [], False)


def of_finding(finding, text):
    """A fault at each of its places."""
    words, *hints = reporting.words_of(finding, text)
    places = dict.fromkeys([(finding.start, finding.end), *((start, end) for start, end, _ in finding.more)])
    related = [Related(start, end, "here too") for start, end in list(places)[1:]]
    for at, (start, end) in enumerate(places):
        is_first = finding.is_first and at == 0
        fixes = fixes_of(finding, text) if at == 0 else []
        yield Diagnostic("error", str(finding.fault), start, end, words, hints, [] if at else related, fixes, is_first)


def fixes_of(finding, text):
    fixes = [Fix(*finding.fix)] if finding.fix else []
    pasted = lacking.pasted(finding)
    if pasted:
        place = lacking.before_states(text)
        fixes.append(Fix(f"Add {finding.name} to the script", [(place, place, ("\n".join(pasted) + "\n\n").encode())]))
    return fixes
