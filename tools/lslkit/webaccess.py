"""Tests of accessibility in a browser, by the rules of page/tests/access.js: names, roles, contrast; and pictures."""
import os

from . import places, webpage
from .webpages import script
from .webtesting import need, test

BROKEN = 'default {\n    state_entry() {\n        llOwnerSay("a"; // a comment\n        llAbs(TRUE + 2);\n    }\n}\n'
WIDTHS = ((390, 844), (820, 1180), (1280, 860))
PICTURES = os.path.join(os.path.dirname(webpage.FOLDER), "pictures")
PICTURE = places.in_top("out", "page.png")
# The panel that steps through a run shows a moment and its world, where there is a panel.
STEPPED = """(({ stop, state }) => document.getElementById("step-through").hidden || (stop !== undefined && state === stop))
  (document.getElementById("stepping").dataset)"""


def broken_rules(page):
    """What breaks a rule, in the page and in the frame of its timeline."""
    rules = places.text_of("page", "tests", "access.js")
    found = page.value(f"({rules})(document)")
    return found + page.value(f"({rules})(document.getElementById('timeline').contentDocument)")


def states(page):
    """The page in each of its states, by their names."""
    page.example("door")
    page.tab.until(STEPPED)
    yield "a world that is stepped through"
    page.tab.click("#step-through")
    yield "a world"
    page.tab.click("#builder summary")
    page.tab.until("document.getElementById('step-kind') !== null")
    yield "the forms"
    page.tab.click("#builder summary")
    page.tab.click("#view-told")
    yield "the words"
    page.tab.click("#view-journal")
    yield "the journal"
    page.tab.click("#view-timeline")
    page.follow(script(BROKEN))
    yield "a fault"
    page.edit("default { state_entry() { integer a; a = 1 / a; } }")
    page.tab.press("Enter")
    page.tab.type("llO")
    yield "choices"
    page.tab.press("Escape")
    page.click_run()
    page.tab.until("document.getElementById('status').textContent.includes(':1')")
    yield "a script that stopped"
    page.tab.click("input[value=play]")
    yield "steps"
    page.example("hello")
    yield "an example in place of work"


@test
def names_roles_and_contrast_keep_the_rules(page):
    count = 0
    for is_dark in (False, True):
        page.tab.dark(is_dark)
        page.fresh()
        for name in states(page):
            found = broken_rules(page)
            need(not found, name, "in the dark" if is_dark else "in the light", "breaks:", "; ".join(found[:12]))
            count += 1
    page.tab.dark(False)
    return f"{count} states of the page"


@test
def pictures_are_taken(page):
    """For eyes: each width, light and dark. The page's own picture is that of a first visit."""
    os.makedirs(PICTURES, exist_ok=True)
    page.fresh()
    page.example("door")
    for width, height in WIDTHS:
        for is_dark in (False, True):
            page.tab.resize(width, height, width < 400)
            page.tab.dark(is_dark)
            page.drawn()
            page.tab.picture(os.path.join(PICTURES, f"{width}-{'dark' if is_dark else 'light'}.png"))
    page.tab.dark(False)
    page.tab.resize(1280, 860)
    page.fresh()
    page.tab.until(STEPPED)
    page.drawn()
    page.tab.picture(PICTURE)
    page.tab.resize(1280, 800)
    return f"pictures are in {PICTURES}, and {PICTURE}"
