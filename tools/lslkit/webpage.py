"""The folder out/page, which any server of files can serve: the page in the browser, its module, the examples to choose
from, and the words that it shares with the tools."""
import glob
import json
import os
import shutil

from . import faults, highlighting, tables, webmodule, words, worlds
from .places import in_top, text_of, write_text

FOLDER = os.path.dirname(webmodule.MODULE)
WORDS = os.path.join(FOLDER, "words.json")
# The files of page/ that are no part of the page that is served.
ASIDE = ("heap.c", "package.json", "picture.png")
# Where the page says whether its module is proved.
PROVED = 'data-module="proved"'
FAULTS = range(1, 58)
# How a script is played that does nothing by itself.
STEPS = "touch Ann\nwait 1s\ntouch Ben"
FIRST = "examples/courier/courier.world"


def named(*pattern):
    found = glob.glob(in_top("examples", *pattern))
    return sorted((os.path.relpath(it, in_top()) for it in found), key=lambda it: (it != FIRST, it))


def title_of(path):
    return os.path.splitext(os.path.basename(path))[0].replace("_", " ")


def example(group, path, files, how, steps=""):
    texts = [[it, text_of(it)] for it in files]
    return {"group": group, "title": title_of(path), "files": texts, "how": how, "file": path, "steps": steps}


def world(group, path):
    files = dict.fromkeys(it.file for it in worlds.named(text_of(path)))
    return example(group, path, [path, *files], "replay")


def script(path):
    is_played = text_of(os.path.splitext(path)[0] + ".out").startswith("accepted ")
    return example("Scripts", path, [path], *(("play", STEPS) if is_played else ("once", "")))


def examples():
    """What the page offers to choose from, each with its files and how it is run."""
    found = [world("Worlds", it) for it in named("*", "*.world")]
    found += [script(it) for it in named("*.lsl")]
    found += [example("Broken scripts", it, [it], "check") for it in named("bad", "*.lsl")]
    return found + [world("Broken worlds", it) for it in named("bad", "worlds", "*.world")]


def meanings():
    """The words of all faults, by their numbers."""
    found = {str(it): faults.meaning(it) for it in FAULTS}
    return {number: words for number, words in found.items() if words != faults.meaning(0)}


def named_words():
    """For each call, event and constant its sort, its signature and a line of what it does."""
    found = {}
    for sort, table in (("call", tables.calls()), ("event", tables.events()), ("constant", tables.constants())):
        said = words.table_or_none(f"{sort}s") or {}
        for name, row in table.items():
            known = said.get(name, {})
            signature = f"{row.kind} {name} = {row.value}" if sort == "constant" else call_of(row, known.get("params"))
            found[name] = {"sort": sort, "signature": signature, "does": known.get("does", "")}
    return found


def call_of(row, names):
    """A call or an event with the kinds and the names of its parameters."""
    names = names if names and len(names) == len(row.params) else [""] * len(row.params)
    params = ", ".join(f"{kind} {name}".rstrip() for kind, name in zip(row.params, names))
    result = getattr(row, "result", None)
    return f"{result + ' ' if result else ''}{row.name}({params})"


def shared_words():
    """The tables that the page reads: phrases, steps, faults, names, and the grammar for their colours."""
    said = {number: {"says": it} for number, it in meanings().items()}
    shared = {name: words.table_or_none(name) for name in ("journal", "steps", "habits", "substitutes")}
    return {
        **{name: it for name, it in shared.items() if it},
        "faults": words.table_or_none("faults") or said,
        "names": named_words(),
        "grammar": highlighting.textmate(),
    }


def write(path, text):
    write_text(os.path.join(FOLDER, path), text)


def make():
    """Writes all files of the folder but the module."""
    os.makedirs(FOLDER, exist_ok=True)
    for path in glob.glob(os.path.join(FOLDER, "*.*")):
        if not os.path.basename(path).startswith(os.path.basename(webmodule.MODULE)):
            os.remove(path)
    for path in glob.glob(in_top("page", "*.*")):
        if os.path.basename(path) not in ASIDE:
            shutil.copyfile(path, os.path.join(FOLDER, os.path.basename(path)))
    how = webmodule.made_as() or "unproved"
    write("index.html", text_of("page", "index.html").replace(PROVED, PROVED.replace("proved", how)))
    write("examples.json", json.dumps(examples()))
    write("words.json", json.dumps(shared_words()))
