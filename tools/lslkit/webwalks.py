"""Walks through the page in a browser: a user types, clicks and presses keys."""
import json
import os
import tempfile

from . import places, timeline, webpage
from .webpages import ENDED, script
from .webtesting import in_both, need, test

HELLO = 'default {\n    state_entry() {\n        llOwnerSay("Hello, Avatar!");\n    }\n}\n'
DIVIDES = "default {\n    state_entry() {\n        integer a = 0;\n        integer b = 10 / a;\n    }\n}\n"
ENDLESS = "default {\n    state_entry() {\n        while (TRUE) ;\n    }\n}\n"
LONG = "\n".join(["run 1000000", *["wait 1s"] * 2000])
BROKEN = 'default {\n    state_entry() {\n        llOwnerSay("a";\n    }\n}\n'


@in_both
def outcomes_come_first(page):
    page.fresh()
    page.follow(script(HELLO))
    need(page.status == "finished", "hello is", page.status)
    need('"Hello, Avatar!"' in page.text("output"), "hello is shown as", page.text("output"))
    page.follow(script(DIVIDES))
    page.tab.until("document.getElementById('status').textContent === 'stopped: Math Error in calc.lsl:4'")
    need(page.text("output").endswith("in calc.lsl:4"), "the output has", page.text("output"))
    need(page.value("document.getElementById('status').className") == "bad", "the status has no colour")
    page.value("(document.querySelector('#output .fault').click(), true)")
    need(page.selection[0] == DIVIDES.index("        integer b"), "a click goes to", page.selection)
    page.follow(script(ENDLESS))
    wanted = "still running after 1,000,000 segments, in state_entry at calc.lsl:3"
    page.tab.until(f"document.getElementById('status').textContent === {json.dumps(wanted)}")
    world = {"files": [["a.world", 'object 00000000-0000-0000-0000-000000000001 "A" '
              '00000000-0000-0000-0000-000000000002 "N"\nscript "a" "no.lsl"\nbegin\nend\n']]}
    page.follow({**world, "how": "replay", "file": "a.world", "steps": ""})
    need(page.status == "no.lsl isn't here: a.world names it in line 2", "it says", page.status)
    return "five outcomes"


@test
def examples_come_to_their_journals(page):
    page.fresh()
    page.tab.click("#view-journal")
    for number, it in enumerate(webpage.examples()):
        page.example_at(number)
        shown = page.value("[...document.querySelectorAll('#journal .row')].map(it => it.textContent).join('\\n')")
        wanted = places.text_of(it["file"].rpartition(".")[0] + ".out")
        if it["group"].startswith("Broken"):
            need(page.status.startswith("not accepted: "), it["file"], "is", page.status)
            need(wanted.split(" error: ")[0].split(":")[1] in page.status, it["file"], "is", page.status)
            marked = page.value("document.querySelectorAll('#paint .marked').length")
            need(marked == 1, it["file"], "has no marked line")
        elif it["how"] != "play":
            need(wanted.startswith(shown) and shown, it["file"], "wrote", shown)
    need(not page.tab.said, "the page says", page.tab.said)
    return f"{len(webpage.examples())} examples"


@in_both
def keys_indent_and_undo_takes_back(page):
    page.fresh()
    page.follow(script("aa\nbb\ncc\n"))
    page.focus_editor()
    page.select(1, 5)
    page.tab.press("Tab")
    need(page.source == "    aa\n    bb\ncc\n", "Tab makes", repr(page.source))
    page.tab.press("Tab", "Shift")
    need(page.source == "aa\nbb\ncc\n", "Shift and Tab make", repr(page.source))
    page.tab.press("z", "Control")
    page.tab.press("z", "Control")
    need(page.source == "aa\nbb\ncc\n", "two undos make", repr(page.source))
    page.select(2, 2)
    page.tab.press("Tab")
    need(page.source == "aa  \nbb\ncc\n", "Tab makes", repr(page.source))
    page.tab.press("z", "Control")
    need(page.source == "aa\nbb\ncc\n", "undo makes", repr(page.source))
    page.edit("")
    page.tab.type("f() {\nx;\n}")
    need(page.source == "f() {\n    x;\n}", "typing makes", repr(page.source))
    page.tab.press("Escape")
    need(page.focus == "run", "Escape goes to", page.focus)
    return "Tab, Shift and Tab, Enter, Escape and undo"


@in_both
def no_work_is_lost(page):
    page.fresh()
    page.example("hello")
    page.focus_editor(0)
    page.tab.type("// mine\n")
    mine = page.source
    need(mine.startswith("// mine\n"), "the editor has", mine)
    page.open()
    need(page.source == mine, "after a reload there is", page.source)
    page.example("door")
    need(page.source != mine and "replaced" in page.text("undo"), "nothing says that the files were replaced")
    page.open()
    page.tab.click("#undo-button")
    need(page.source == mine, "after Undo there is", page.source)
    page.tab.click("#add")
    page.tab.click("#remove")
    need(page.source == mine and "removed" in page.text("undo"), "Remove leaves", page.source)
    page.tab.click("#undo-button")
    need(page.tabs == ["hello.lsl", "script.lsl"], "after Undo the files are", page.tabs)
    page.tab.click("#remove")
    page.tab.click("#undo-forget")
    need(page.value("document.getElementById('undo').hidden"), "the files can still be had back")
    return "a reload, an example and Remove"


@in_both
def run_runs_what_is_seen(page):
    page.fresh()
    page.tab.click("#add")
    page.click_run()
    need('"Hello!"' in page.text("output"), "after + it says", page.text("output"))
    page.example("door")
    page.tab.click("#tab-1")
    page.click_run()
    need("Door open" in page.text("output"), "a script of the world runs as", page.text("output"))
    page.tab.click("#tab-0")
    page.tab.click("#remove")
    page.click_run()
    need(page.status == "finished", "without its world it is", page.status)
    page.focus_editor(0)
    page.tab.type(" ")
    need(page.value("!document.getElementById('old').hidden"), "the results aren't marked as old")
    page.click_run()
    need(page.value("document.getElementById('old').hidden"), "the results are marked as old")
    return "after +, after a tab, after Remove"


@in_both
def runs_are_stopped_and_followed_by_another(page):
    page.fresh()
    link = page.link(script(ENDLESS, "play", steps=LONG))
    page.value(f"(location.hash = {json.dumps(link)}, true)")
    page.tab.until("!document.getElementById('stop').disabled && document.getElementById('old').hidden")
    page.tab.click("#stop")
    page.tab.until("document.getElementById('status').textContent === 'stopped by you'")
    page.tab.click("#run")
    page.tab.until("!document.getElementById('stop').disabled")
    page.example("hello")
    need(page.status == "finished" and "Hello" in page.text("output"), "the example chosen meanwhile is", page.status)
    return "Stop, and an example while a run is under way"


@in_both
def faults_are_shown_in_the_editor(page):
    page.fresh()
    page.follow(script(HELLO))
    page.edit(BROKEN)
    page.click_run()
    need(page.status.startswith("not accepted: ") and "calc.lsl:3:23" in page.status, "it says", page.status)
    need("llOwnerSay(\"a\";" in page.text("output"), "the output has", page.text("output"))
    beside = page.value("document.querySelector('#paint .marked .beside')?.textContent")
    need(beside and beside in page.status, "beside the line is", beside)
    need(page.value("document.activeElement.tagName") == "TEXTAREA", "the focus is at", page.focus)
    need(page.selection[0] == BROKEN.index(";"), "the caret is at", page.selection)
    page.focus_editor(0)
    page.tab.click("#problems button")
    need(page.selection[0] == BROKEN.index(";"), "a click goes to", page.selection)
    page.tab.press("ArrowLeft")
    page.tab.type(")")
    need(page.value("document.getElementById('problems').hidden"), "the fault is still listed")
    page.click_run()
    need(page.status == "finished", "mended it is", page.status)
    head = 'object 00000000-0000-0000-0000-000000000001 "A" 00000000-0000-0000-0000-000000000002 "N"\n'
    world = head + 'script "a" "a.lsl"\nscript "b" "b.lsl"\nbegin\nend\n'
    files = [["a.world", world], ["a.lsl", BROKEN], ["b.lsl", "default { touch() { } }"]]
    page.follow({"files": files, "how": "replay", "file": "a.world", "steps": ""})
    listed = page.value("[...document.querySelectorAll('#problems button')].map(it => it.textContent.split(': ')[0])")
    need(listed == ["a.lsl:3:23", "b.lsl:1:11"], "the faults are", listed)
    page.value("(document.querySelectorAll('#problems button')[1].click(), true)")
    need(page.source == files[2][1] and page.selection[0] == 10, "a click goes to", page.source, page.selection)
    two = "default {\n    state_entry() { llAbs(a); }\n    timer() { llAbs(b); }\n}\n"
    page.follow(script(two, "check"))
    page.tab.until("document.querySelectorAll('#paint .marked').length === 2")
    listed = page.value("[...document.querySelectorAll('#problems button')].map(it => it.textContent.split(': ')[0])")
    need(listed == ["calc.lsl:2:27", "calc.lsl:3:21"], "the faults of two handlers are", listed)
    return "a fault, its line and its mending; the faults of two files and of two handlers"


@in_both
def names_are_completed_and_explained(page):
    page.fresh()
    page.follow(script("default {\n    state_entry() {\n        \n    }\n}\n"))
    page.focus_editor(len("default {\n    state_entry() {\n        "))
    page.tab.type("llOwn")
    page.tab.until("!document.getElementById('choices').hidden")
    names = page.value("[...document.querySelectorAll('#choices li')].map(it => it.textContent)")
    need(names == ["llOwnerSay"], "the choices are", names)
    page.tab.press("Enter")
    page.tab.type("(")
    need("llOwnerSay(\n" in page.source, "the editor has", page.source)
    need("llOwnerSay(string" in page.text("hint"), "the hint is", page.text("hint"))
    page.tab.type('"a");')
    page.tab.press("ArrowLeft")
    page.tab.until("[...document.querySelectorAll('#paint .pair')].map(it => it.textContent).join('') === '()'")
    page.tab.type("ow")
    page.tab.press("Escape")
    need(page.value("document.getElementById('choices').hidden"), "Escape leaves the choices")
    need(page.focus == "TEXTAREA", "Escape leaves the editor at once, for", page.focus)
    calls = "document.querySelectorAll('#paint .c-support-function')"
    coloured = page.value(f"[...{calls}].map(it => it.textContent)")
    need(coloured == ["llOwnerSay"], "the calls are", coloured)
    return "completion, hints, brackets and colours"


@test
def the_pointer_explains(page):
    page.fresh()
    page.follow(script(HELLO))
    x, y = page.value("""(() => {
      const it = document.querySelector("#paint .c-support-function").getBoundingClientRect();
      return [it.x + 20, it.y + 9]; })()""")
    page.tab.hover(x, y)
    page.tab.until("!document.getElementById('tip').hidden")
    need(page.text("tip").startswith("llOwnerSay("), "the pointer says", page.text("tip"))
    return "a call under the pointer"


def filled(page, fields):
    for name, value in fields.items():
        page.value(f"(document.getElementById({json.dumps(name)}).value = '', true)")
        page.tab.click(f"#{name}")
        page.tab.insert(value)


def pressed(page, form):
    count = len(page.source)
    page.tab.click(f"#forms form[aria-label={form}] button")
    page.tab.until(f"document.querySelector('#sheet textarea').value.length > {count}")


def chosen(page, name, value):
    page.value(f"""(() => {{ const it = document.getElementById({json.dumps(name)}); it.value = {json.dumps(value)};
      it.dispatchEvent(new Event("change", {{ bubbles: true }})); return it.value; }})()""")


@in_both
def worlds_are_built_by_forms(page):
    page.fresh()
    page.tab.click("#add-world")
    filled(page, {"object-name": "Boat", "object-region": "North"})
    pressed(page, "Object")
    filled(page, {"object-name": "Pier"})
    pressed(page, "Object")
    chosen(page, "script-prim", "1.1")
    chosen(page, "script-file", "a new script")
    pressed(page, "Script")
    pressed(page, "Step")
    chosen(page, "step-kind", "say")
    filled(page, {"step-name": "Ben", "step-text": "hi"})
    pressed(page, "Step")
    chosen(page, "step-kind", "cross")
    filled(page, {"step-region": "South"})
    pressed(page, "Step")
    page.click_run()
    need(page.status == "finished", "the world is", page.status, page.source)
    page.tab.click("#view-told")
    told = page.text("told")
    for wanted in ("Ann touches Boat", 'Ben says on 0: "hi"', "Boat crosses from North to South", "Boat is in South"):
        need(wanted in told, wanted, "isn't in", told)
    page.focus_editor(page.source.index("cross 1"))
    page.tab.press("ArrowRight")
    page.tab.until("document.getElementById('hint').innerText.startsWith('cross OBJECT REGION')")
    page.tab.press("z", "Control")
    need("cross" not in page.source, "undo leaves", page.source)
    return "two objects, a script, a touch, a say and a crossing"


@test
def a_world_is_frozen(page):
    page.fresh()
    page.example("door")
    page.tab.click("input[value=freeze]")
    page.click_run()
    need(page.status == "finished" and page.text("save") == "Save the frozen world", "it is", page.status)
    page.tab.click("#view-journal")
    page.value("document.getElementById('journal').scrollTo(0, 1e6)")
    page.tab.until("document.querySelector('#journal .row:last-child').textContent.startsWith('frozen ')")
    return "a frozen world"


@in_both
def the_keyboard_is_enough(page):
    page.fresh()
    page.follow(script(HELLO))
    page.value("(document.getElementById('examples').focus(), true)")
    for _ in range(12):
        if page.value("document.activeElement.tagName") == "TEXTAREA":
            break
        page.tab.press("Tab")
    need(page.value("document.activeElement.tagName") == "TEXTAREA", "Tab comes to", page.focus)
    page.tab.press("a", "Control")
    page.tab.type('default{state_entry(){llSay(0,"keys");}}')
    page.tab.press("Escape")
    need(page.focus == "run", "Escape goes to", page.focus)
    page.tab.press("Tab", "Shift")
    need(page.focus == "file", "Shift and Tab go to", page.focus)
    page.press_run()
    need(page.status == "finished" and '"keys"' in page.text("output"), "it is", page.status)
    page.value("(document.getElementById('view-timeline').focus(), true)")
    page.tab.press("ArrowRight")
    need(page.focus == "view-told", "an arrow goes to", page.focus)
    need(page.value("!document.getElementById('told').hidden"), "the words are hidden")
    page.tab.press("End")
    need(page.focus == "view-journal", "End goes to", page.focus)
    page.tab.press("Home")
    page.value("(document.getElementById('tab-0').focus(), true)")
    page.tab.press("ArrowRight")
    is_chosen = page.value("document.activeElement.getAttribute('aria-selected')")
    need(is_chosen == "true", "the tabs have no arrows")
    return "Tab, Escape, Enter and arrows"


@in_both
def the_focus_stays_at_run(page):
    page.fresh()
    page.follow(script(HELLO))
    page.press_run()
    need(page.focus == "run", "after a run the focus is at", page.focus)
    page.focus_editor(3)
    page.run(lambda: page.tab.press("Enter", "Control"))
    is_in_editor = page.value("document.activeElement.tagName") == "TEXTAREA"
    need(is_in_editor and page.selection == [3, 3], "it is at", page.focus)
    return "Run by its key, and by Ctrl and Enter"


def framed(page, expression):
    document = "document.getElementById('timeline').contentDocument"
    return page.value(f"(() => {{ const it = {document}; return {expression}; }})()")


@in_both
def the_timeline_has_keys_and_buttons(page):
    page.fresh()
    page.example("door")
    page.value("(document.getElementById('timeline').focus(), true)")
    framed(page, "(it.defaultView.focus(), it.getElementById('canvas').focus(), true)")
    for key, wanted in (("Right", "door: "), ("Right", "door: "), ("Down", "lamp: "), ("Down", "log: ")):
        page.tab.press(f"Arrow{key}")
        said = framed(page, "it.getElementById('spot').textContent")
        need(said.startswith(wanted), key, "says", said)
    page.tab.press("Enter")
    rows = framed(page, "[...it.querySelectorAll('#lines .row')].map(it => it.textContent).join('\\n')")
    need("log" in rows and "door" not in rows, "the lines are", rows)
    for name in ("closer", "on", "back", "wider", "fit"):
        framed(page, f"(it.getElementById('{name}').click(), true)")
    framed(page, "(it.getElementById('find').value = 'lamp off', it.getElementById('next').click(), true)")
    spot = "document.getElementById('timeline').contentDocument.getElementById('spot')"
    page.tab.until(f"{spot}.textContent.includes('lamp off')")
    need(not page.tab.said, "the page says", page.tab.said)
    return "arrows, Enter, buttons and a search"


@in_both
def the_page_of_lsl_html_draws(page):
    """The one file that `lsl --html` writes, opened without a server."""
    world, text = places.text_of("examples", "door", "door.world"), places.text_of("examples", "door", "door.out")
    with tempfile.TemporaryDirectory(prefix="lsl-page-") as room:
        path = os.path.join(room, "door.html")
        places.write_text(path, timeline.page(text, world, None, "Door"))
        page.tab.said.clear()
        page.tab.open(f"file://{path}")
        page.tab.until("document.getElementById('count')?.textContent === '3 scripts, 14 handlers, 43 lines'")
        rows = page.value("[...document.querySelectorAll('#lines .row')].map(it => it.textContent)")
    need("Door closed" in rows[1] and not page.tab.said, "the page shows", rows[:3], page.tab.said)
    return "one file"


@test
def the_timeline_is_pinched(page):
    page.fresh()
    page.example("door")
    page.value("""(() => { const canvas = document.getElementById("timeline").contentDocument.getElementById("canvas");
      const fire = (type, pointerId, x) => canvas.dispatchEvent(new PointerEvent(type, { pointerId, bubbles: true,
        clientX: canvas.getBoundingClientRect().x + x, clientY: canvas.getBoundingClientRect().y + 80,
        pointerType: "touch" }));
      canvas.setPointerCapture = () => {};
      window.before = canvas.toDataURL();
      fire("pointerdown", 1, 300); fire("pointerdown", 2, 340);
      fire("pointermove", 1, 200); fire("pointermove", 2, 440);
      fire("pointerup", 1, 200); fire("pointerup", 2, 440);
      return true; })()""")
    page.tab.until("document.getElementById('timeline').contentDocument.getElementById('canvas').toDataURL() !== before")
    return "two fingers"


@test
def a_phone_shows_the_outcome(page):
    page.tab.resize(390, 844, True)
    try:
        page.fresh()
        page.example("hello")
        page.value("(scrollTo(0, 0), true)")
        page.click_run()
        top = page.value("document.getElementById('status').getBoundingClientRect().top")
        need(0 <= top < 300, "the status is at", top)
        wide = page.value("document.documentElement.scrollWidth")
        need(wide <= 390, "the page is wide as", wide)
        low = """[...document.querySelectorAll("button, select, input:not([type=radio])")].filter(it => it.offsetParent)
          .filter(it => it.getBoundingClientRect().height < 44).map(it => it.id || it.textContent)"""
        need(page.value(low) == [], "these are lower than 44 pixels:", page.value(low))
        framed_low = low.replace("document.", "document.getElementById('timeline').contentDocument.")
        need(page.value(framed_low) == [], "these are lower than 44 pixels:", page.value(framed_low))
    finally:
        page.tab.resize(1280, 800)
    return "390 pixels"


@test
def a_browser_without_memories_is_told(page):
    source = "WebAssembly.validate = () => false"
    added = page.tab.call("Page.addScriptToEvaluateOnNewDocument", source=source)
    try:
        page.fresh(ready="document.getElementById('status')?.className === 'bad'")
        need("64-bit WebAssembly memories" in page.status, "it says", page.status)
        need(page.value("document.getElementById('run').disabled"), "Run can be pressed")
    finally:
        page.tab.call("Page.removeScriptToEvaluateOnNewDocument", identifier=added["identifier"])
    page.open(ready=ENDED)
    return "a browser without 64-bit memories"
