"""Where a call, an event, a constant, a fault or a step is in the crates, the pages and the examples."""
import os
import re
from collections import namedtuple

from . import worlds
from .places import TOP, in_top, text_of

# What is looked for: its sort, its name, the words of its variant in code, and the lines that count anywhere.
Subject = namedtuple("Subject", "sort name variant enum anywhere")
# A place: its group, its file, its line and the line's text.
Place = namedtuple("Place", "group file line text")
GROUPS = ("row", "definition", "code", "proof", "must-fail", "tests", "pages", "examples")
TABLES = (("call", "calls", "BuiltinId"), ("event", "events", "EventId"), ("constant", "constants", "ConstantId"))
IMPORT = re.compile(r"\s*(pub use|ghost use|use|mod|pub mod)\b")
WIDTH = 120


def subject_of(name):
    """What a name or a fault's number means, or none."""
    for sort, table, enum in TABLES:
        rows = text_of("crates", "lsl_table", "src", f"{table}.rt")
        row = re.search(r'(?m)^ +(\w+) "%s" .*;$' % re.escape(name), rows)
        if row:
            return Subject(sort, name, row[1], enum, r'"%s"' % name + (r"|\b%s\(" % name if sort == "call" else ""))
    if name.isdigit():
        return fault_of(name)
    if name in worlds.FORMS:
        sort = "line" if name in worlds.DECLARED else "step"
        return Subject(sort, name, name.capitalize(), "Step", f'"{name}"')
    return None


def fault_of(number):
    """The fault of this number: the row of a table of numbers."""
    for path in sources():
        row = re.search(r"(\w+)::(\w+)(?: \{ \.\. \})? => %s," % number, read(path))
        if path.endswith("faults.rt") and row:
            said = r"=> {0},|fault {0}\b|^\| {0} \|".format(number)
            return Subject("fault", number, row[2], row[1], said)
    return None


def sources():
    """Each file of the crates, pages and examples."""
    for top in ("crates", "docs", "examples"):
        for folder, folders, names in os.walk(in_top(top), followlinks=top == "examples"):
            folders[:] = sorted(it for it in folders if it not in ("out", "data"))
            for name in sorted(names):
                if name.endswith((".rt", ".antt", ".edit", ".md", ".lsl", ".world")):
                    yield os.path.join(folder, name)


def read(path):
    with open(path, encoding="utf-8", errors="replace") as file:
        return file.read()


def group_of(path, subject):
    parts = os.path.relpath(path, TOP).split(os.sep)
    if parts[0] != "crates":
        return "pages" if parts[0] == "docs" else "examples"
    crate, folder = parts[1], parts[2]
    if crate.startswith("tests_") or crate == "lsl_rows":
        return "tests"
    if folder in ("proofs", "must-fail"):
        return "proof" if folder == "proofs" else folder
    if folder == "specs":
        return "definition"
    is_row = subject.sort in ("call", "event", "constant") and (crate, parts[-1]) in rows_of(subject)
    return "row" if is_row else "code" if folder == "src" else "pages"


def rows_of(subject):
    tables = {sort: table for sort, table, _ in TABLES}
    return {("lsl_table", f"{tables[subject.sort]}.rt"), ("lsl_value", "names.rt")}


def places_of(subject):
    """Each place, in the order of the groups; and those of the functions that the subject's rows call."""
    texts = {path: read(path) for path in sources()}
    named = re.compile(subject.anywhere)
    variant = re.compile(r"\b%s\b" % subject.variant)
    found, functions = [], set()
    for path, text in texts.items():
        speaks = re.search(r"\b%s\b" % subject.enum, text) is not None
        for number, line in enumerate(text.split("\n"), 1):
            in_script = path.endswith(".lsl") and re.search(r"\b%s\b" % subject.name, line)
            if IMPORT.match(line) or not (named.search(line) or in_script or (speaks and variant.search(line))):
                continue
            found.append(Place(group_of(path, subject), os.path.relpath(path, TOP), number, line.strip()))
            if re.search(r"\b%s\b.*=>" % subject.variant, line) and "crates" in path:
                functions.update((path.split("/src/")[0], it) for it in re.findall(r"\b([a-z]\w*)\(", line))
    found += [it for folder, name in sorted(functions) for it in places_of_function(folder, name, texts, subject)]
    return sorted(dict.fromkeys(found), key=lambda it: GROUPS.index(it.group))


def places_of_function(folder, name, texts, subject):
    """Where a function of a crate is written and where its proof is."""
    for path, text in texts.items():
        if path.startswith(f"{folder}/src/"):
            for it in re.finditer(r"(?m)^ *(?:pub(?:\(crate\))? )?fn %s\b.*$" % name, text):
                line = text.count("\n", 0, it.start()) + 1
                yield Place(group_of(path, subject), os.path.relpath(path, TOP), line, it[0].strip())
        elif path.startswith(f"{folder}/proofs/") and f"/{name}/" in path:
            yield Place("proof", os.path.relpath(path, TOP), 1, f"of {name}")


def lines(places, most):
    """The places as lines, those of a group below its name, at most `most` of each."""
    for group in GROUPS:
        rows = [it for it in places if it.group == group]
        if rows:
            yield group
        for it in rows[:most]:
            yield f"  {it.file}:{it.line}: {it.text}"[:WIDTH]
        if len(rows) > most:
            yield f"  and {len(rows) - most} more"
