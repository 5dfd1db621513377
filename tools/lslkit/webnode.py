"""The tests of the page's module and of what the page makes of journals, in node, beside what lslkit makes of them."""
import base64
import functools
import importlib.machinery
import importlib.util
import json
import os
import shutil
import subprocess
import tempfile

from . import faults, findings, journal, kit, observing, places, quoting, showing, stage, standing, talking, tokens
from . import webmodule, webpage, worlds
from .webtesting import need, test

PROBE = "process.exit(WebAssembly.validate(new Uint8Array([0,97,115,109,1,0,0,0,5,3,1,4,0])) ? 0 : 1)"
HEAP_ROUNDS = 300000
HEAP_RUN = """const [path, rounds] = process.argv.slice(1);
const module = new WebAssembly.Module(require("fs").readFileSync(path));
process.stdout.write(`${new WebAssembly.Instance(module).exports.faults(BigInt(rounds))}`);"""
WITH_MEMORY64 = "--experimental-wasm-memory64"
STAGED = (
    "touch Ann\nwait 10s\nsay 5 open\nby Ben\nsay hello\nsay -3 4",
    "touch 3\ntouch Ann 2\nchanged 256\nrez 0\nwait\nrun 5\nwait 1.5s",
    'by "A" \\ B\ntouch\nsay  a "b" \\n\n\nafter 500ms\nwait 2m',
)


@functools.lru_cache(maxsize=None)
def suite():
    """The tool that reads the suite."""
    loader = importlib.machinery.SourceFileLoader("suite", places.in_top("tools", "suite"))
    module = importlib.util.module_from_spec(importlib.util.spec_from_loader("suite", loader))
    loader.exec_module(module)
    return module


# In node


@functools.lru_cache(maxsize=None)
def node():
    """The words that begin a call of node: with a flag where it has 64-bit memories after one."""
    found = shutil.which("node")
    if found is None:
        raise kit.NotMade("there is no 'node' on the PATH, which plays the module")
    for flags in ([], [WITH_MEMORY64]):
        if subprocess.run([found, *flags, "-e", PROBE], stderr=subprocess.DEVNULL, check=False).returncode == 0:
            return [found, *flags]
    raise kit.NotMade("this node has no 64-bit WebAssembly memories: take node 20 or newer")


def encoded(content):
    return base64.b64encode(content).decode()


def run_of(word, file, files, room=None):
    """The task of a run."""
    texts = [[name, encoded(content)] for name, content in files]
    return ["run", {"word": word, "file": file, "files": texts, "room": room}]


def driven(tasks):
    """What comes of tasks."""
    words = [*node(), places.in_top("page", "tests", "drive.js"), webmodule.MODULE, webpage.WORDS]
    ran = subprocess.run(words, input=json.dumps(tasks).encode(), stdout=subprocess.PIPE, check=False)
    need(ran.returncode == 0, "node ended with", ran.returncode)
    return json.loads(ran.stdout)


def output_of(answer):
    return base64.b64decode(answer["output"])


def room_of(case):
    """The room of a case that makes nothing fail but the output for its room; nothing of another."""
    words = case.outside.split(" ")
    return int(words[2]) if len(words) == 3 and words[:2] == ["0", "0"] else None


@functools.lru_cache(maxsize=None)
def cases():
    """The cases of the suite that the module can play: with two words, and without a shelf that fails."""
    found = [it for it in suite().chosen([]) if it and len(it.words) == 2]
    return [it for it in found if not it.fails or room_of(it) is not None]


def compare(found, tasks):
    """Plays cases, and compares the status and the output of each."""
    answers = driven(tasks)
    for case, answer in zip(found, answers):
        came = (answer["status"], output_of(answer))
        need(came == (case.status, case.written), case.name, "came to", came, "and not to", (case.status, case.written))
    most = max(answers, key=lambda it: it["milliseconds"])
    return f"{len(found)} equal runs; the longest took {most['milliseconds']:.0f} ms"


@test
def cases_of_the_suite_come_to_the_same():
    found = [it for it in cases() if not it.fails]
    return compare(found, [run_of(*it.words, it.files) for it in found])


@test
def outputs_that_are_too_long_are_cut_at_the_room():
    found = [it for it in cases() if it.fails]
    return compare(found, [run_of(*it.words, it.files, room_of(it)) for it in found])


@test
def examples_come_to_the_same():
    found = [it for it in webpage.examples() if it["group"] in ("Worlds", "Scripts") and it["how"] != "play"]
    tasks = [run_of(it["how"], it["file"], [(name, text.encode()) for name, text in it["files"]]) for it in found]
    for it, answer in zip(found, driven(tasks)):
        wanted = places.text_of(os.path.splitext(it["file"])[0] + ".out").encode()
        need((answer["status"], output_of(answer)) == (0, wanted), it["file"], "came to", answer["status"])
    return f"{len(found)} equal runs"


@test
def the_heap_keeps_its_blocks():
    with tempfile.TemporaryDirectory(prefix="lsl-page-") as room:
        made = webmodule.of_c(places.in_top("page", "tests", "heap_faults.c"), room, ["faults"])
        words = [*node(), "-e", HEAP_RUN, webmodule.linked([made], room), str(HEAP_ROUNDS)]
        ran = subprocess.run(words, stdout=subprocess.PIPE, check=False)
    need(ran.returncode == 0 and ran.stdout == b"0", "faults:", ran.stdout)
    return f"{HEAP_ROUNDS:,} blocks were taken, moved or given"


# What the page shows, beside what lslkit shows


def observed_in(room, text, task, entries):
    """The second run of a world as lslkit makes it, as a task, and how its journal is read."""
    second = observing.Second(text, room, with_probes=False)
    marker = [(os.path.join(room, "marker.lsl"), observing.MARKER.encode())] if second.stride else []
    files = [(name, base64.b64decode(content)) for name, content in task["files"]]
    return second, run_of("replay", "\0second", [*files, ("\0second", second.text.encode()), *marker])


def told_by_tools(text, entries, second, answer):
    """The lines that tools/show shows of a journal."""
    observed = None
    if answer["status"] == 0 and second.stride:
        kept, seen = second.observe(journal.read(output_of(answer).decode()))
        observed = seen if kept == entries else None
    return list(showing.lines(entries, worlds.read(text), showing.Painter(False), observed))


def world_of(task):
    if task["word"] == "once":
        return standing.world_of_once(task["file"])
    return base64.b64decode(dict(task["files"])[task["file"]]).decode()


@test
def words_are_those_of_tools_show():
    found = [it for it in cases() if it.status == 0 and it.words[0] in ("once", "replay") and not it.fails]
    found = [it for it in found if all(is_text(text) for _, text in it.files)]
    tasks = [run_of(*it.words, it.files)[1] for it in found]
    journals = [journal.read(it.written.decode()) for it in found]
    with tempfile.TemporaryDirectory(prefix="lsl-page-") as room:
        seconds = [observed_in(room, world_of(task), task, it) for task, it in zip(tasks, journals)]
        answers = driven([it[1] for it in seconds])
    came = driven([["told", task] for task in tasks])
    rows = 0
    for case, task, entries, (second, _), answer, told in zip(found, tasks, journals, seconds, answers, came):
        wanted = told_by_tools(world_of(task), entries, second, answer)
        differing = [(one, other) for one, other in zip(wanted, told["rows"]) if one != other]
        counts = (len(wanted), len(told["rows"]))
        need(not differing and counts[0] == counts[1], case.name, "differs in", differing[:1] or counts)
        rows += len(wanted)
    return f"{len(found)} cases, {rows:,} equal lines"


PLAYS = ("once", "replay", "freeze", "thaw")
REFUSED = (1, 2, 3, 4, 6, 8)


def journal_of(case):
    """The whole lines of the journal that a case writes, and its world; nothing where it writes none."""
    if len(case.words) < 2 or case.words[0] not in PLAYS or case.status in REFUSED:
        return None
    world = dict(case.files).get(case.words[1], b"")
    lines = case.written[: case.written.rfind(b"\n") + 1]
    if not is_text(world) or not is_text(lines):
        return None
    is_once = case.words[0] == "once"
    return lines.decode(), standing.world_of_once(case.words[1]) if is_once else world.decode()


@test
def lines_of_all_cases_are_in_the_same_words():
    """Also of what the page doesn't run: thawed worlds, and what is cut where something fails."""
    found = [(it.name, journal_of(it)) for it in suite().chosen([]) if it]
    found = [(name, *it) for name, it in found if it]
    came = driven([["lines", {"journal": text, "world": world}] for _, text, world in found])
    count = 0
    for (name, text, world), rows in zip(found, came):
        wanted = list(showing.lines(journal.read(text), worlds.read(world), showing.Painter(False)))
        differing = [it for it in zip(wanted, rows) if it[0] != it[1]]
        need(not differing and len(wanted) == len(rows), name, "differs in", differing[:1] or (len(wanted), len(rows)))
        count += len(rows)
    return f"{len(found)} cases, {count:,} equal lines"


def staged_by_lslkit(script, lines):
    """The world that `lsl play` makes of these steps; but a wait goes to its end at once, as the page's does."""
    it = stage.Stage()
    it.add_script(script)
    it.run()
    talk = talking.Talk(None, it)
    for line in lines.split("\n"):
        word, _, rest = line.strip().partition(" ")
        if word == "by":
            talk.by(rest.strip())
        elif word == "run":
            it.ticks = stage.number(rest.strip(), "run")
        elif word in ("wait", "after"):
            it.go_to(it.clock + stage.milliseconds(rest.strip() or "1s"))
        elif word:
            talk.step(word, rest.strip())
    return it.text()


@test
def steps_are_played_in_the_same_world():
    script = "examples/door/door.lsl"
    came = driven([["stage", {"file": script, "lines": lines}] for lines in STAGED])
    for lines, text in zip(STAGED, came):
        staged = staged_by_lslkit(script, lines)
        need(text == staged, lines, "came to", text, "and not to", staged)
    return f"{len(STAGED)} equal worlds"


def told_by_lslkit(case):
    """How lslkit tells the fault of a file, without hints: its place, the line and a caret."""
    _, name, line, row, column, fault, _ = faults.REFUSAL.fullmatch(case.written.decode().rstrip("\n")).groups()
    name = quoting.unquoted(name)
    return faults.with_line(name, dict(case.files)[name], int(line or row), int(column or 1), int(fault), [])


@test
def faults_are_told_as_by_lslkit():
    found = [it for it in cases() if it.status in (2, 3, 8) and not it.fails]
    found = [it for it in found if all(is_text(text) for _, text in it.files)]
    tasks = []
    for it in found:
        files = [[name, text.decode()] for name, text in it.files]
        tasks.append(["fault", {"output": it.written.decode(), "files": files}])
    for case, came in zip(found, driven(tasks)):
        wanted, said = told_by_lslkit(case), came["said"]
        # lslkit shows a part of a long line or none, and no carriage return: then the words alone are compared.
        is_cut = "\n" not in wanted or ".. " in wanted or "\r" in said
        if is_cut or max(map(len, said.split("\n"))) >= 110:
            wanted, said = wanted.split("\n")[0], said.split("\n")[0]
        need(said == wanted, case.name, "came to", said[:300], "and not to", wanted[:300])
    return f"{len(found)} faults"


SEVERAL = (
    'f() {\n  return "\u00e4" + b;\n}\ndefault {\n  state_entry() { llSay(0, "\u00e9" c); }\n'
    "  timer() { llAbs(c); }\n}\n",
    "default {\n  touch_start(integer n) { n = 1 }\n  state_entry() { jump a; }\n  timer() { f(); }\n}\n",
    "integer a = b;\ndefault { state_entry() { c; } }\n",
)


def place_of(text, refusal):
    """The byte of a refusal's place, and its fault."""
    _, _, _, row, column, fault, _ = faults.REFUSAL.fullmatch(refusal).groups()
    return tokens.Lines(text).place_of(int(row), int(column)), int(fault)


@test
def faults_of_several_bodies_are_those_of_lslkit():
    """The page finds at most one fault in each body, and each of them is one that lslkit finds."""

    def check(text):
        output = output_of(driven([run_of("check", "a.lsl", [("a.lsl", text)])])[0]).decode()
        found = faults.REFUSAL.fullmatch(output.split("\n")[0])
        return found and tuple(int(found[it]) for it in (4, 5, 6))

    count = 0
    for text, came in zip(SEVERAL, driven([["refusals", {"name": "a.lsl", "text": it}] for it in SEVERAL])):
        code = text.encode()
        known = [(start, it.fault) for it in findings.of(code, check) for start, *_ in [(it.start,), *it.more]]
        for it in came:
            need(place_of(code, it) in known, it, "of", text, "isn't among", known)
        count += len(came)
    need(count > len(SEVERAL), "only", count, "faults were found")
    return f"{count} faults in {len(SEVERAL)} scripts"


OUTCOMES = {
    # A script, its reason or nothing, and the line at which it stops or is cut.
    "integer a;\ndefault { state_entry() {\n  a = 0;\n  integer b = 10 / a;\n} }": ("Math Error", 4),
    "integer f() {\n  return 1;\n}\ndefault { state_entry() {\n  integer b = f() / 0;\n} }": ("Math Error", 5),
    "default { state_entry() {\n  if (1)\n    llSay(0, \"/\");\n  else\n    2;\n  1 % 0;\n} }": ("Math Error", 6),
    "default { state_entry() {\n  do {\n    1 / 0;\n  } while (TRUE);\n} }": ("Math Error", 3),
    "default { state_entry() {\n  while (TRUE) ;\n} }": (None, 2),
    "default { state_entry() {\n  integer n;\n  @again;\n  ++n;\n  jump again;\n} }": (None, 5),
}


@test
def lines_of_faults_are_found():
    tasks = [["outcome", run_of("once", "a.lsl", [("a.lsl", text.encode())])[1]] for text in OUTCOMES]
    for (text, (reason, line)), came in zip(OUTCOMES.items(), driven(tasks)):
        reasons = [it["reason"] for it in came["faults"]]
        need(reasons == ([reason] if reason else []), text, "came to", reasons)
        need(came["located"][:1] == [line], text, "stops at", came["located"])
    return f"{len(OUTCOMES)} scripts"


@test
def colours_are_those_of_the_grammar():
    text = 'integer a = 1; // x\n/* default\n "b */ state_entry() { llSay(PUBLIC, "c\n\\"d"); float'
    rows = driven([["coloured", {"text": text}]])[0]
    need("".join("".join(it[0] for it in row) + "\n" for row in rows) == text + "\n", "the text is another one", rows)
    seen = {piece: sort for row in rows for piece, sort in row}
    wanted = {
        "integer": "c-storage-type",
        "// x": "c-comment-line",
        "/* default": "c-comment-block",
        ' "b */': "c-comment-block",
        "state_entry": "c-entity-name-function-event",
        "llSay": "c-support-function",
        '"c': "c-string-quoted-double",
        '\\"d"': "c-string-quoted-double",
        "float": "c-invalid-illegal-missing",
    }
    for piece, sort in wanted.items():
        need(seen.get(piece) == sort, repr(piece), "has", seen.get(piece), "in", rows)
    return f"{len(wanted)} pieces"


def is_text(content):
    """Whether a file can be shown as it is."""
    try:
        content.decode()
    except UnicodeDecodeError:
        return False
    return True


@test
def links_hold_what_is_played():
    plays = [{key: it[key] for key in ("files", "how", "file", "steps")} for it in webpage.examples()]
    for play, came in zip(plays, driven([["share", it] for it in plays])):
        need(came == play, play["file"], "came back as", came)
    return f"{len(plays)} links"
