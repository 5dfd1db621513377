"""Checks of what the tools explain: faults, warnings, and why a play does nothing."""
import contextlib
import glob
import io
import json
import os
import re
import subprocess
import tempfile

from . import diagnostics, findings, making, places, playing, program, reporting, tables, talking, warned, words
from .checking import check, need
from .quoting import unquoted


@check
def faults_have_one_table_of_words():
    text = places.text_of("docs", "LANGUAGE.md").partition("\n## Faults\n")[2]
    rows = dict(re.findall(r"(?m)^\| (\d+) \| (.*?) \|", text))
    table = {number: row["says"] for number, row in words.table("faults").items()}
    differing = set(rows.items()) ^ set(table.items())
    need(not differing, "docs/LANGUAGE.md differs from tools/words/faults.json in", differing)


def check_of_program():
    return program.checker(making.any_program())


def lines_of_run(text):
    """The journal of a script."""
    with tempfile.TemporaryDirectory() as room:
        path = os.path.join(room, "s.lsl")
        places.write_text(path, text)
        ran = program.run(making.any_program(), ["once", path])
        need(ran.status == 0, ran.output.decode(), text)
    return program.lines_of(ran.output)


@check
def each_substitute_runs():
    for name, row in words.table("substitutes")["names"].items():
        need(name in tables.known_to_lsl() and not tables.is_here(name), name, "isn't what LSL alone has")
        pasted, before = "\n".join(row.get("function", [])), row.get("before", "")
        tests = row.get("tests", [])
        need(not pasted or tests or "says" in row, name, "has no test")
        said = "".join(f"llOwnerSay({value}); " for value, _ in tests)
        if tests:
            lines = lines_of_run(f"{pasted}\ndefault {{ state_entry() {{ {before} {said} }} }}\n")
            owner = [unquoted(it[9:-1]) for it in lines if it.startswith("owner 1 ")]
            need(owner == [it for _, it in tests], name, "says", owner)
        if "says" in row:
            lines = lines_of_run(f"{pasted}\ndefault {{ state_entry() {{ {row['says'][0]}; }} }}\n")
            need(row["says"][1] in lines, name, "says", lines)


@check
def each_fault_is_one_of_the_rest():
    """Of the scripts as people write them: none of the faults is due to the mending before it."""
    text = b"""// A light
#define LONG 100
vector RED = <1.0, 0.0, 0.0>;
default {
    state_entry() {
        llSetColor(RED, ALL_SIDES);
        llSetTimerEvent(0.0);
        for (integer i = 0; i < LONG; i++) { llOwnerSay('x'); break; }
        cuont = 5;
        llOwnerSay("a" + 5);
    }
    sensor(integer n) { llOwnerSay(llKey2Name(llDetectedKey(0))); llWhat(); }
}
"""
    found = [(it.fault, text[it.start : it.end].decode(), it.is_first) for it in findings.of(text, check_of_program())]
    wanted = [(5, "#", True), (12, "vector", False), (4, "1", False)]
    wanted += [(20, "llSetColor", False), (20, "ALL_SIDES", False)]
    wanted += [(10, "integer", False), (5, "'", False), (20, "break", False), (20, "cuont", False), (23, "+", False)]
    wanted += [(30, "sensor", False), (20, "llKey2Name", False), (20, "llWhat", False)]
    need(found == wanted, "found", found)


# It shows what becomes of a script whose memory runs out, so that its loop has no other end.
WARNED_EXAMPLES = {"examples/overflow.lsl": ["constant-condition"]}


def names_in(*pattern):
    found = sorted(glob.glob(os.path.join(places.TOP, *pattern)))
    need(found, "no file is called", pattern)
    return [os.path.relpath(it, places.TOP) for it in found]


def text_in(name):
    return places.bytes_of(places.in_top(name))


@check
def each_warning_has_an_example():
    names = {os.path.basename(it)[:-4]: it for it in names_in("examples", "warned", "*.lsl")}
    need(set(names) == set(words.table("warnings")), "the examples are", sorted(names))
    for warning, name in names.items():
        need([it.name for it in warned.of(text_in(name))] == [warning], name, "has", warned.of(text_in(name)))
        need(reporting.report_warnings(name, text_in(name)) + "\n" == text_in(name[:-4] + ".out").decode(), name)


@check
def no_other_example_is_warned_of():
    others = [it for it in names_in("examples", "*.lsl") + names_in("examples", "*", "*.lsl")]
    for name in [it for it in others if not it.startswith(("examples/warned/", "examples/bad/"))]:
        found = [it.name for it in warned.of(text_in(name))]
        need(found == WARNED_EXAMPLES.get(name, []), name, "has", found)


@check
def warnings_are_diagnostics():
    for name in names_in("examples", "warned", "*.lsl"):
        found = diagnostics.of(text_in(name), check_of_program())
        need([it.severity for it in found] == ["warning"] and found[0].code in name, name, "has", found)


HABITS = {
    b"#define N 5\ndefault { timer() { llSleep(N); } }": "write `integer N = 5;`",
    b"default { timer() { llOwnerSay('x'); } }": 'write "x"',
    b"default { timer() { for (integer i = 0; i < 3; i++) llSleep(i); } }": "`integer i;`",
    b"default { timer() { integer x; switch (x) { case 1: llSleep(1); break; } } }": "LSL has no switch",
    b"default { timer() { while (TRUE) { break; } } }": "jump out;",
    b"default { timer() { while (TRUE) { continue; } } }": "jump next;",
    b"default { timer() { if (1) llSleep(1); llSleep(2); else llSleep(3); } }": "put { } around several",
    b"default { timer() { integer x; x =+ 2; } }": "write `+=`",
    b"default { timer() { llSetTimerEvent(0.0); } }": "write whole seconds: 0",
    b"default { timer() { llSetTimerEvent(0.4); } }": "write whole seconds: 1",
    b"\xff\xfed\0e\0f\0": "save it as UTF-8",
    b'default { timer() { llOwnerSay("caf\xe9"); } }': "Latin-1",
    b"void f() { } default { timer() { f(); } }": "leave void out",
    b"integer a, b; default { timer() { } }": "`integer a; integer b;`",
    b"integer a = 2 * 3; default { timer() { } }": "no expression",
    b"default { timer() { integer x; x = x ? 1 : 2; } }": "`if (..) x = a; else x = b;`",
    b"default { timer() { list l = [1]; llSleep(l[0]); } }": "llList2Integer(l, 0)",
    b"string llToLower(string s) { return s; } default { timer() { llOwnerSay(llToLower(\"A\")); } }": "",
    b"default { timer() { llOwnerSay(llToUpper(\"a\")); } }": "add this function",
}


@check
def habits_of_other_languages_are_explained():
    for text, wanted in HABITS.items():
        said = reporting.report("s.lsl", text, check_of_program())
        need((wanted in said) if wanted else said == "", text, "is explained as", said)
        need(said.count("error:") <= (wanted != ""), text, "has more faults than one:", said)


def played(play, room):
    """What a play says of the last of its lines."""
    texts = {"s.lsl": play["script"], **play.get("others", {})}
    for name, text in texts.items():
        places.write_text(os.path.join(room, name), text)
    words_of_play = playing.Play([os.path.join(room, it) for it in texts])
    binary = making.any_program()
    talk = talking.Talk(binary, words_of_play.staged(binary))
    said = io.StringIO()
    with contextlib.redirect_stdout(said):
        talk.show()
    for line in play["play"]:
        said = io.StringIO()
        word, _, rest = line.partition(" ")
        with contextlib.redirect_stdout(said):
            # What is shown at the last line alone counts.
            talk.do(word, rest) if line is play["play"][-1] or word in ("by", "prim") else talk.step(word, rest)
    return said.getvalue()


@check
def the_causes_of_an_example_are_as_documented():
    text = places.text_of("docs", "DEBUGGING.md")
    wanted = re.search(r"\$ tools/explain --why (\S+)\n(.*?)```", text, re.S)
    how = {"stdout": subprocess.PIPE, "cwd": places.TOP, "env": {**os.environ, "LSL_PROGRAM": making.any_program()}}
    said = subprocess.run([places.in_top("tools", "explain"), "--why", wanted[1]], check=True, **how).stdout.decode()
    need(said == wanted[2], "said", said)


@check
def plays_without_effect_have_their_cause():
    plays = json.loads(places.text_of("tools", "lslkit", "puzzles.json"))["plays"]
    need(len(plays) >= 40, "there are", len(plays))
    for play in plays:
        with tempfile.TemporaryDirectory() as room:
            said = played(play, room)
        need(play["says"] in said, play["name"], "says", said)
