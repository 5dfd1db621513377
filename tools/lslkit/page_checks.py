"""Checks of the words that page and tools share, and of the page that `tools/show --html` writes."""
import json
import os
import re
import shutil
import subprocess
import tempfile

from . import observing, places, showing, timeline, words, worlds
from .checking import Skipped, check, need

WORLD = ("examples", "door", "door.world")
FIELD = re.compile(r"\{(\w+)\}")


@check
def pages_hold_the_journal():
    world, text = places.text_of(*WORLD), places.text_of("examples", "door", "door.out")
    page = timeline.page(text, world, observing.Observation([0, 0], [], {3: "open"}), "</script> & more")
    data = json.loads(re.search(r'(?s)id="data">(.*?)</script>', page)[1])
    need((data["journal"], data["world"]) == (text, world), "the page has another journal")
    need(data["steps"] == [0, 0] and data["states"] == {"3": "open"}, "the page has other steps", data["steps"])
    need("<title>&lt;/script&gt; &amp; more</title>" in page, "the title isn't", page[:600])
    need("http" not in page.replace("http-equiv", ""), "the page names a place of the network")


@check
def pages_have_scripts_that_can_be_read():
    node = shutil.which("node")
    if node is None:
        raise Skipped("there is no node")
    with tempfile.TemporaryDirectory() as room:
        path = os.path.join(room, "page.mjs")
        places.write_text(path, timeline.script())
        done = subprocess.run([node, "--check", path], stderr=subprocess.PIPE, check=False)
    need(done.returncode == 0, "node says", done.stderr.decode())


@check
def the_forms_of_worlds_are_those_of_the_table():
    table = words.table("steps")
    forms = {name: tuple(it["fields"]) for sort in ("declarations", "steps") for name, it in table[sort].items()}
    need(forms == worlds.FORMS, "the forms are", forms, "and those of lslkit", worlds.FORMS)
    ranges = {name: (it["least"], it["most"]) for name, it in table["fields"].items() if it["sort"] == "number"}
    need(ranges == worlds.RANGES, "the ranges are", ranges)
    need(set(table["steps"]) <= set(table["says"]), "a step has no phrase")


@check
def journals_are_shown_in_the_words_of_the_table():
    """Each line of the examples is one of the phrases, with its fields filled."""
    phrases = [*words.table("journal").values(), *words.table("steps")["says"].values()]
    forms = [re.compile(".*".join(map(re.escape, FIELD.split(it)[::2])), re.S) for it in phrases]
    world, text = places.text_of(*WORLD), places.text_of("examples", "door", "door.out")
    entries = showing.journal.read(text)
    for line in showing.lines(entries, worlds.read(world), showing.Painter(False)):
        said = line[len("    door ") :].strip() if not line.startswith(("Door", "Log")) else line
        need(any(it.fullmatch(said) for it in forms), said, "is no phrase")
