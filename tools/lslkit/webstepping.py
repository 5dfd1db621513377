"""Walks through the panel that steps through a run: forward and back, by buttons, keys and the slider."""
import functools
import json

from . import webwalks
from .webpages import script
from .webtesting import in_both, need, test

SHOWN = "document.getElementById('stepping').dataset"
CALLS = ["steps_in, line 7", "walk, line 15", "walk, line 17", "default.touch_start, line 23"]
COUNTS = """integer total;
add(integer n) {
    total += n;
}
default {
    state_entry() {
        integer i;
        for (i = 1; i < 4; ++i) {
            add(i);
        }
        llOwnerSay((string)total);
    }
}
"""
LONG = """integer n;
default {
    state_entry() {
        while (n < 200000) {
            ++n;
        }
    }
}
"""
HOLDS = """integer count;
default {
    state_entry() {
        ++count;
        llListen(3, "", "", "");
        llLinksetDataWrite("kept", "yes");
        llSetTimerEvent(5);
    }
    timer() {
        ++count;
        llSay(0, (string)count);
    }
}
"""
WORLD = """object 00000000-0000-4000-9000-000000000001 "Box" 00000000-0000-4000-8000-000000000001 "here"
script "whole" "whole.lsl"
begin
run 100
clock 5000
run 100
end
"""
FAULT = "integer a;\ndefault {\n    state_entry() {\n        a = 5;\n        a = a / (a - 5);\n    }\n}\n"


def has_steps(page):
    return page.value("import('./core.js').then(async core => { const got = await fetch('lsl_page.wasm'); "
                      "return core.hasCore(await WebAssembly.compile(await got.arrayBuffer())); })")


def of_steps(walk):
    """A walk that needs the module's calls for stepping. Without them it shows that the panel isn't there."""

    @functools.wraps(walk)
    def walked(page):
        page.fresh()
        if has_steps(page):
            page.tab.until("!document.getElementById('step-through').hidden")
            return walk(page)
        need(not page.is_seen("step-through"), "the panel is offered without its calls")
        return "the module has no calls for stepping, and the page no panel"

    return walked


def settled(page):
    """Waits until the moment that was gone to is shown with the state of its world."""
    page.tab.until(f"{SHOWN}.stop !== undefined && {SHOWN}.state === {SHOWN}.stop")


def moved(page, act):
    """Does what leads to another moment, and waits for it. The text of its place."""
    before = page.text("place")
    act()
    page.tab.until(f"document.getElementById('place').innerText !== {json.dumps(before)}")
    return page.text("place")


def pressed(page, move):
    return moved(page, lambda: page.tab.click(f"#moves [data-move={move}]"))


def keyed(page, *keys):
    return moved(page, lambda: page.tab.press(*keys))


def calls(page):
    return page.value("[...document.querySelectorAll('#calls button')].map(it => it.textContent)")


def marked(page):
    """The variables that are marked as changed, with their values."""
    return page.value("""[...document.querySelectorAll('#values .changed')]
      .map(it => it.firstChild.textContent + " " + it.children[1].firstChild.textContent)""")


def world_of(text, world):
    """A play of a world of one script."""
    return {"files": [["whole.lsl", text], ["whole.world", world]], "how": "replay", "file": "whole.world", "steps": ""}


def steps_of(page, play):
    """Follows a link, and shows its first moment."""
    page.follow(play)
    step_through(page, True)
    page.tab.until("document.getElementById('place').textContent.startsWith('1 of ')")


def step_through(page, is_wanted):
    """Shows the panel, or hides it."""
    if page.is_seen("stepping") != is_wanted:
        page.tab.click("#step-through")


@in_both
@of_steps
def a_crossing_is_stepped_over_forward_and_back(page):
    settled(page)
    said = page.text("crossing")
    need(said == "Next: Courier crosses from Plaza to Harbour, with 4 calls active", "before it the page says", said)
    need(calls(page) == CALLS, "the calls are", calls(page))
    need("Courier in Plaza" in page.text("world-now"), "the world is", page.text("world-now"))
    pressed(page, "step")
    settled(page)
    need(page.text("crossing").startswith("Before this"), "after the crossing it says", page.text("crossing"))
    need(calls(page) == ["steps_in, line 9", *CALLS[1:]], "after it the calls are", calls(page))
    need("Courier in Harbour" in page.text("world-now"), "after it the world is", page.text("world-now"))
    pressed(page, "back")
    settled(page)
    need(calls(page) == CALLS and "Courier in Plaza" in page.text("world-now"), "back again the calls are", calls(page))
    pressed(page, "finish")
    need(calls(page)[0] == "walk, line 16", "out of the call it is", calls(page))
    pressed(page, "reverse-crossing")
    need(calls(page) == CALLS, "before the crossing the calls are", calls(page))
    pressed(page, "crossing")
    need(calls(page)[0] == "steps_in, line 9", "over the crossing the calls are", calls(page))
    return "four calls on both sides of a crossing"


@in_both
@of_steps
def lines_are_run_to_and_variables_marked(page):
    steps_of(page, script(COUNTS))
    said = moved(page, lambda: page.tab.click("#source-3 .gutter"))
    need("add at calc.lsl:3" in said, "line 3 is run to at", said)
    need(marked(page) == ["n 1", "i 1"], "what is marked are", marked(page))
    moved(page, lambda: page.tab.click("#source-3 .gutter"))
    need(marked(page) == ["n 2", "i 2", "total 1"], "the second time marked are", marked(page))
    lines = page.value("[...document.querySelectorAll('#source .now, #source .outer')].map(it => it.id)")
    need(lines == ["source-3", "source-9"], "the lines of the calls are", lines)
    said = moved(page, lambda: page.tab.click("#moves [data-move=reverse-line]"))
    need("add at calc.lsl:3" in said and "n\t1" in page.text("calls"), "back it is at", said, page.text("calls"))
    said = moved(page, lambda: page.tab.click("#moves [data-move=reverse-line]"))
    need("isn't begun there" in said, "before the first time it says", said)
    pressed(page, "finish")
    need(calls(page)[0].startswith("default.state_entry"), "out it is at", calls(page))
    need("total\t1" in page.text("globals"), "the globals are", page.text("globals"))
    return "a line, thrice"


@in_both
@of_steps
def the_keyboard_steps(page):
    steps_of(page, script(COUNTS))
    page.value("(document.getElementById('step-through').focus(), true)")
    for name in ("output", "moment"):
        page.tab.press("Tab")
        need(page.focus == name, "Tab comes to", page.focus)
    places = [keyed(page, "ArrowRight"), keyed(page, "s"), keyed(page, "S", "Shift"), keyed(page, "ArrowLeft")]
    need([it.split(" ")[0] for it in places] == ["2", "3", "2", "1"], "the keys lead to", places)
    said = keyed(page, "End").split(";")[0]
    need(len(set(said.split(" of "))) == 1, "End is at", said)
    need(keyed(page, "Home").startswith("1 of "), "Home is at", page.text("place"))
    need(page.focus == "moment", "the focus goes to", page.focus)
    said = page.value("document.getElementById('moment').getAttribute('aria-valuetext')")
    need(said == page.text("place"), "the slider says", said)
    page.value("(document.getElementById('source').focus(), true)")
    for _ in range(9 - 7):
        page.tab.press("ArrowDown")
    said = keyed(page, "Enter")
    need("calc.lsl:9" in said, "Enter at line 9 leads to", said)
    need(keyed(page, "n").split(";")[1] != said.split(";")[1], "over the call it is at", page.text("place"))
    need(page.focus == "source", "the focus goes to", page.focus)
    said = keyed(page, "Enter", "Shift")
    need("calc.lsl:9" in said, "Shift and Enter lead to", said)
    return "arrows, Home, End, letters and Enter"


@in_both
@of_steps
def a_bar_of_the_timeline_leads_to_its_moment(page):
    page.example("door")
    page.tab.until(f"{SHOWN}.stop !== undefined && document.getElementById('place').textContent.startsWith('1 of ')")
    frame = "document.getElementById('timeline').contentDocument"
    page.value(f"({frame}.defaultView.focus(), {frame}.getElementById('canvas').focus(), true)")
    before = page.value(f"{frame}.getElementById('canvas').toDataURL()")
    for key in ("Right", "Right", "Right"):
        page.tab.press(f"Arrow{key}")
    said = page.value(f"{frame}.getElementById('spot').textContent")
    event = said.split(": ")[1].split("(")[0]
    page.tab.until(f"document.getElementById('place').textContent.includes({json.dumps('.' + event)})")
    need(page.value(f"{frame}.getElementById('canvas').toDataURL()") != before, "the timeline is drawn as before")
    shown = page.value("[...document.querySelectorAll('#so-far .row')].at(-1).textContent")
    need(event in shown, "the journal so far ends with", shown)
    return f"the moment of {event}"


@test
@of_steps
def a_place_of_the_timeline_shows_the_whole_world(page):
    page.follow(world_of(HOLDS, WORLD))
    step_through(page, False)
    frame = "document.getElementById('timeline').contentDocument"
    page.value(f"({frame}.defaultView.focus(), {frame}.getElementById('canvas').focus(), true)")
    for _ in range(2):
        page.tab.press("ArrowRight")
    page.tab.until(f"{frame}.getElementById('world-name').textContent === 'World, before step 3'")
    said = page.value(f"{frame}.getElementById('world').innerText")
    wanted = ("Box in here", "clock\t5.000 s", "count\t1", "waits\ttimer()", "on channel 3", "every 5 s", "\"yes\"")
    need(all(it in said for it in wanted), "the world is", said)
    step_through(page, True)
    need(page.value(f"{frame}.getElementById('world-side').hidden"), "the world is shown twice")
    return "globals, a listen, a timer and a store"


@test
@of_steps
def a_wait_goes_from_timer_to_timer(page):
    page.follow(world_of(HOLDS, WORLD))
    page.value("(document.getElementById('builder').open = true)")
    page.tab.until("document.getElementById('step-kind') !== null")
    webwalks.chosen(page, "step-kind", "clock")
    webwalks.filled(page, {"step-seconds": "12"})
    webwalks.pressed(page, "Step")
    page.tab.until("document.querySelector('#sheet textarea').value.includes('clock 17000')")
    clocks = [it for it in page.source.splitlines() if it.startswith("clock")]
    need(clocks == [f"clock {it}000" for it in (5, 10, 15, 17)], "the clock goes by", clocks)
    return "twelve seconds, with two timers in them"


@test
@of_steps
def a_fault_is_a_moment(page):
    steps_of(page, script(FAULT))
    page.value("(document.getElementById('moment').focus(), true)")
    said = keyed(page, "End")
    need("Math Error" in said and "calc.lsl:5" in said, "the last moment is", said)
    settled(page)
    return "a fault"


@test
@of_steps
def long_traces_say_so_and_are_narrowed(page):
    page.follow(script(LONG))
    step_through(page, True)
    page.tab.until("!document.getElementById('step-window').hidden")
    need("too long" in page.text("step-note"), "it says", page.text("step-note"))
    page.tab.click("#step-window [name=handlers]")
    page.tab.click("#step-window button")
    page.tab.until("document.getElementById('place').textContent.startsWith('1 of 1')")
    disabled = page.value("[...document.querySelectorAll('#moves button:disabled')].length")
    need(disabled > 0, "of handlers all moves can be made")
    return "a trace that is cut, and its handlers"


@test
@of_steps
def a_phone_steps(page):
    page.tab.resize(390, 844, True)
    try:
        page.fresh()
        page.tab.until(f"{SHOWN}.state !== undefined")
        wide = page.value("document.documentElement.scrollWidth")
        need(wide <= 390, "the page is wide as", wide)
        low = page.value("""[...document.querySelectorAll("#moves button, #moment, #step-through")]
          .filter(it => it.offsetParent && it.getBoundingClientRect().height < 44)
          .map(it => it.id || it.textContent)""")
        need(low == [], "these are lower than 44 pixels:", low)
        pressed(page, "step")
        need(calls(page)[0] == "steps_in, line 9", "the calls are", calls(page))
    finally:
        page.tab.resize(1280, 800)
    return "390 pixels"
