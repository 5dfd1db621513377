"""Checks of how tools begin and end: outputs that take nothing, wrong words and files, signals."""
import os
import re
import signal
import subprocess
import tempfile
import time

from . import making, places, playing, program, stage, talking, worlds
from .checking import check, need

HELLO, JOURNAL = "examples/hello.lsl", "examples/hello.out"
BAD, WORLD = "examples/bad/bell.lsl", "examples/door/door.world"
TICKING = "integer n; default { state_entry() { llSetTimerEvent(7); } timer() { llOwnerSay((string)++n); } }"
NAMING = (
    "default { touch_start(integer n) { llSay(0, llDetectedName(0)); } changed(integer f) { llSay(0, (string)f); } }"
)
NAMED = (
    "touch \"Ann Lee\"\nchanged CHANGED_OWNER | CHANGED_LINK\nchanged nothing\nby 'Bob'\ntouch\nwait soon\nquit\n"
)
CUT = "standard output took no more, and is cut short (status 5)\n"


def run(*words, shell="", status=None, **how):
    """Runs a tool at the top, with what the shell adds to its words. Its standard output and standard error."""
    environment = {**os.environ, "LSL_PROGRAM": making.any_program(), **how.pop("env", {})}
    line = ["sh", "-c", f'"$0" "$@" {shell}', places.in_top(words[0]), *words[1:]]
    pipes = {"stdout": subprocess.PIPE, "stderr": subprocess.PIPE, "cwd": places.TOP}
    done = subprocess.run(line, check=False, env=environment, **{**pipes, **how})
    output, notes = done.stdout.decode(errors="replace"), done.stderr.decode(errors="replace")
    need("Traceback" not in notes, words, "leaves a traceback:", notes)
    need(status in (None, done.returncode), words, shell, "ended with", done.returncode, output, notes)
    return output, notes


COMMANDS = (
    ("lsl", "once", HELLO),
    ("lsl", "check", HELLO),
    ("lsl", "check", BAD),
    ("lsl", "once", HELLO, "--show"),
    ("lsl", "play", HELLO, "--touch", "Ann"),
    ("lsl", "play", HELLO, "--touch", "Ann", "--world"),
    ("lsl", "--version"),
    ("tools/explain", BAD),
    ("tools/show", "examples/hello.out"),
    ("tools/suite", "", "chat"),
)


@check
def an_output_that_takes_nothing_is_status_5():
    for words in COMMANDS:
        words = [it or making.any_program() for it in words]
        for shell in (">/dev/full", ">&-"):
            _, notes = run(*words, shell=shell, status=5)
            need(notes.endswith(CUT), words, shell, "says", notes)


@check
def pages_that_cannot_be_written_are_told():
    with tempfile.TemporaryDirectory() as room:
        for page in (room, os.path.join(room, "none", "page.html")):
            for words in (["lsl", "once", HELLO], ["lsl", "play", HELLO, "--touch", "Ann"], ["tools/show", JOURNAL]):
                _, notes = run(*words, "--html", page, status=5)
                need(notes.count("\n") == 1 and page in notes, words, "says", notes)


@check
def wrong_files_of_a_journal_are_told():
    for words in ([JOURNAL, HELLO], [HELLO], [WORLD], ["/bin/sh"], [JOURNAL, "/bin/sh"], ["examples"]):
        _, notes = run("tools/show", *words, status=1)
        need(notes.count("\n") == 1, words, "says", notes)


@check
def the_suite_takes_a_program_alone():
    for name in ("--try", "lsl", "examples", "nowhere"):
        _, notes = run("tools/suite", name, status=1)
        need(notes.startswith("suite: ") and notes.count("\n") == 1, name, "says", notes)


@check
def the_suite_plays_trips_in_memory():
    name, path = "replayed-after-it-came-back", "suite/handover.cases"
    output, _ = run("tools/suite", making.any_program(), name, status=0)
    need(output.startswith("1 not run: "), "a program gives", output)
    output, _ = run("tools/suite", "--memory", name, status=0)
    need(output == "1 passed, 0 failed\n", "in memory it gives", output)
    case = next(it for it in places.text_of(path).split("\n\n") if f"? {name}\n" in it)
    with tempfile.TemporaryDirectory() as room:
        wrong = os.path.join(room, "wrong.cases")
        places.write_text(wrong, re.sub(r"(?m)^(= .*)=$", r"\1/", case) + "\n")
        output, _ = run("tools/suite", "--memory", wrong, status=1)
        need(f"{name}: status" in output and output.endswith("\n0 passed, 1 failed\n"), "another trip gives", output)


@check
def a_stopped_suite_leaves_nothing():
    with tempfile.TemporaryDirectory() as room:
        slow = os.path.join(room, "slow")
        places.write_text(slow, "#!/bin/sh\necho $$ >> \"$(dirname \"$0\")/begun\"\nsleep 60\n")
        os.chmod(slow, 0o755)
        for number in (signal.SIGINT, signal.SIGTERM):
            suite = subprocess.Popen([places.in_top("tools", "suite"), slow, "chat"], stderr=subprocess.PIPE)
            while not os.path.exists(os.path.join(room, "begun")):
                time.sleep(0.05)
            suite.send_signal(number)
            _, notes = suite.communicate(timeout=20)
            need(suite.returncode == 128 + number and notes.count(b"\n") == 1, "it ended with", suite.returncode, notes)
            begun = [int(it) for it in places.bytes_of(os.path.join(room, "begun")).split()]
            need(not any(map(is_running, begun)), "it left", begun)
            os.remove(os.path.join(room, "begun"))


def is_running(number):
    try:
        with open(f"/proc/{number}/stat", encoding="ascii") as file:
            return file.read().rpartition(")")[2].split()[0] != "Z"
    except OSError:
        return False


@check
def words_are_said_where_they_are_asked_for():
    for words, env in ((["check", "--explain", BAD], {}), (["check", BAD], {"LSL_EXPLAIN": "1"})):
        output, notes = run("lsl", *words, env=env, status=3)
        need(output.startswith("bad script") and "LSL has the call llSin" in notes, words, "says", output, notes)
    _, notes = run("lsl", "check", BAD, status=3)
    need("LSL has" not in notes, "said", notes)


@check
def other_words_and_files_are_understood():
    need(run("lsl", "help", status=0)[0].startswith("usage: lsl once"), "help")
    need(run("lsl", "--version", status=0)[0].startswith("lsl "), "version")
    need(run("lsl", "check", "--try", HELLO, status=0)[0] == f'accepted "{HELLO}"\n', "--try after the command")
    _, notes = run("lsl", "replay", HELLO, status=2)
    need("is a script and no world file: write 'lsl once" in notes, "a script as a world", notes)
    _, notes = run("lsl", "once", WORLD, status=3)
    need("is a world file and no script: write 'lsl replay" in notes, "a world as a script", notes)


@check
def files_of_another_folder_are_told_in_one_line():
    with tempfile.TemporaryDirectory() as room:
        _, notes = run("lsl", "replay", places.in_top(WORLD), cwd=room, status=4)
        said = [it for it in notes.splitlines() if it.startswith("lsl: ")]
        need(len(said) == 1 and f"there from {places.TOP}: go there; so are 2 more" in said[0], "said", notes)
        output, _ = run("lsl", "play", places.in_top(WORLD), "--say", "open", "--channel", "5", cwd=room, status=0)
        need("Door open" in output, "played", output)


@check
def a_wait_goes_from_timer_to_timer():
    with tempfile.TemporaryDirectory() as room:
        path = os.path.join(room, "t.lsl")
        places.write_text(path, TICKING)
        output, _ = run("lsl", "play", path, "--after", "60s", "--journal", status=0)
        need(output.count("took 1 timer") == 8, "played", output)
        binary = making.any_program()
        play = playing.Play([path]).staged(binary)
        talking.wait(binary, play, "60s")
        clocks = [it.fields[0] for it in worlds.read(play.text()).steps if it.word == "clock"]
        need(clocks == [str(it) for it in (*range(7000, 60000, 7000), 60000)], "the clock went to", clocks)


@check
def a_play_takes_names_and_quotes():
    with tempfile.TemporaryDirectory() as room:
        path = os.path.join(room, "t.lsl")
        places.write_text(path, NAMING)
        output, _ = run("lsl", "play", path, input=NAMED.encode(), status=0)
        for wanted in ('"Ann Lee"', '"160"', "'nothing' is no number", '"Bob"', "'soon' is no time"):
            need(wanted in output, wanted, "isn't in", output)


@check
def a_play_has_objects_prims_notecards_and_regions():
    with tempfile.TemporaryDirectory() as room:
        world, frozen, note = (os.path.join(room, it) for it in ("w.world", "frozen", "prices.txt"))
        places.write_text(note, "Tea 5\n")
        words = ["examples/door/door.lsl", "--prim", "Lamp", "examples/door/lamp.lsl", "--object", "Log"]
        words += ["examples/door/log.lsl", "--note", note, "--region", "North"]
        words += ["--by", "Ann", "--say", "open", "--channel", "5"]
        output, _ = run("lsl", "play", *words, "--cross", "South", "--on", "log", "--freeze", frozen, status=0)
        need("link_message" in output and "Log crosses from North to South" in output, "played", output)
        places.write_text(world, run("lsl", "play", *words, "--world", status=0)[0])
        read = worlds.read(places.bytes_of(world).decode())
        need([len(it.prims) for it in read.objects] == [2, 1] and len(read.notes) == 1, "the world is", read.objects)
        need(program.run(making.any_program(), ["replay", world]).status in (0, 4), "it isn't played")
        run("tools/explain", "--view", frozen, world, status=0)
    need(stage.number("CHANGED_INVENTORY|CHANGED_LINK", "changed") == 33, "names of LSL")
