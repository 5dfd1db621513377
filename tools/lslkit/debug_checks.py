"""The checks of the debugger's terminal and adapter: scripts of commands with their transcripts, and sessions of an
editor."""
import glob
import os
import re
import shlex
import subprocess

from . import kit, making, places
from .checking import Skipped, check, need
from .debug_client import Client
from .server import framing
from .server_checks import binary
from .server_client import Client as ServerClient

SCRIPTS = places.in_top("tools", "debug_tests")
COURIER, SOURCE = "examples/courier/courier.world", {"path": places.in_top("examples", "courier", "courier.lsl")}
SECONDS = 120
# Calls that are no session, their statuses, and what they say.
REFUSED = (
    (["nowhere.world"], 4, '"nowhere.world" isn\'t there'),
    ([COURIER, "-x", "nowhere"], 4, '"nowhere" isn\'t there'),
    (["examples/bad/worlds/no_such_prim.world"], 2, "no object, script or prim has the number"),
    (["examples/bad/bell.lsl"], 3, "examples/bad/bell.lsl:12:9: error:"),
    ([], 1, "debug takes a script, or a world file"),
    ([COURIER, "--journal"], 1, "--journal isn't an option of debug"),
    (["--adapter", COURIER], 1, "--adapter takes no other word"),
)
# Requests that aren't done before anything is launched, and why.
EARLY = (
    ("threads", {}, "comes before initialize"),
    ("launch", {"program": COURIER}, "comes before initialize"),
)
LATE = (
    ("initialize", {"adapterID": "lsl"}, "initialize comes once"),
    ("threads", {}, "comes before launch"),
    ("launch", {}, "launch takes `program`"),
    ("launch", {"program": 7}, "`program` of launch is a text"),
    ("launch", {"program": "nowhere.world"}, "isn't there"),
    ("launch", {"program": "examples/bad/bell.lsl"}, "LSL has the call llSin"),
    ("launch", {"program": COURIER, "args": ["--foo"]}, "'--foo' isn't an option of play"),
    ("attach", {}, "there is no request `attach`"),
)
WRONG = (
    ("stackTrace", {"threadId": 9}, "there is no thread 9"),
    ("scopes", {"frameId": 5}, "there is no call 5"),
    ("variables", {"variablesReference": 77}, "there is no call 7"),
    ("evaluate", {"expression": "nosuch"}, "no variable `nosuch` is visible here"),
    ("goto", {"threadId": 1, "targetId": 5000}, "there is no moment 5000"),
    ("setBreakpoints", {"source": {}}, "the source has no path"),
    ("next", {}, "next takes `threadId`"),
    ("launch", {"program": COURIER}, "launch comes once"),
)


def environment():
    """The environment of a call, with the program and the debugger's core."""
    try:
        core = os.environ.get("LSL_DEBUG_PROGRAM") or making.debugger()
    except (AttributeError, kit.NotMade):
        raise Skipped("the debugger's core can't be made here") from None
    return {**os.environ, "LSL_PROGRAM": binary(), "LSL_DEBUG_PROGRAM": core, "NO_COLOR": "1"}


def debugged(*words, said=""):
    """A call of the debugger."""
    command = [places.in_top("lsl"), "debug", *words]
    how = {"stdout": subprocess.PIPE, "stderr": subprocess.PIPE, "cwd": places.TOP, "timeout": SECONDS}
    return subprocess.run(command, input=said.encode(), env=environment(), check=False, **how)


@check
def the_debugger_does_scripts_of_commands():
    names = sorted(glob.glob(os.path.join(SCRIPTS, "*.debug")))
    need(len(names) >= 15, "there are", len(names), "scripts")
    for name in names:
        words = places.text_of(name).split("\n")[0].lstrip("# ").split()
        ran = debugged(*words, "-x", name)
        wanted = places.text_of(f"{os.path.splitext(name)[0]}.out")
        need(ran.stdout.decode() == wanted, os.path.basename(name), "says", ran.stdout.decode(), ran.stderr.decode())
        is_wrong = os.path.basename(name).startswith("wrong")
        need(ran.returncode == int(is_wrong), os.path.basename(name), "ended with", ran.returncode)


@check
def the_debuggers_sessions_are_as_documented():
    """The sessions of docs/DEBUGGING.md, which were typed where the scripts are."""
    found = re.findall(r"(?s)```\n\$ lsl (debug .*?)\n(.*?)```", places.text_of("docs", "DEBUGGING.md"))
    need(len(found) == 6, "there are", len(found), "sessions")
    for words, wanted in found:
        typed = "".join(f"{it}\n" for it in re.findall(r"(?m)^\(lsl\) (.*)$", wanted))
        how = {"stdout": subprocess.PIPE, "stderr": subprocess.STDOUT, "cwd": SCRIPTS, "timeout": SECONDS}
        command = ["sh", "-c", f"exec {shlex.quote(places.in_top('lsl'))} {words}"]
        said = subprocess.run(command, input=typed.encode(), env=environment(), check=False, **how).stdout.decode()
        need(said == wanted, words, "says", said)


@check
def the_debugger_reads_commands_from_standard_input():
    name = os.path.join(SCRIPTS, "hello.debug")
    ran = debugged("examples/hello.lsl", said=places.text_of(name))
    need(ran.stdout.decode() == places.text_of(os.path.join(SCRIPTS, "hello.out")), "it says", ran.stdout.decode())


@check
def the_debugger_says_what_it_cannot_debug():
    for words, status, said in REFUSED:
        ran = debugged(*words)
        notes = ran.stderr.decode()
        need(ran.returncode == status and said in notes, words, "ended with", ran.returncode, notes)
        need("Traceback" not in notes, words, "failed:", notes)


@check
def a_lens_says_how_a_script_is_debugged():
    name = places.in_top("examples", "bell.lsl")
    with ServerClient(binary(), places.TOP) as it:
        it.open(f"file://{name}", places.text_of(name))
        lenses = [row["command"] for row in it.of("codeLens", f"file://{name}") if row["command"]["title"] == "debug"]
        need(len(lenses) > 1, "the lenses are", lenses)
        for lens in lenses:
            said = it.ask("workspace/executeCommand", {"command": lens["command"], "arguments": lens["arguments"]})
            lsl, word, *words = shlex.split(said)
            need((lsl, word) == ("lsl", "debug"), "a lens says", said)
            ran = debugged(*words, said="quit\n")
            need(ran.returncode == 0 and b" moments" in ran.stdout, said, "says", ran.stdout.decode(), ran.stderr.decode())


def client():
    return Client(**environment())


@check
def an_editor_debugs_the_courier():
    with client() as it:
        it.begin(COURIER)
        asked = [{"line": 8, "condition": "house == 3"}, {"line": 19}, {"line": 40}, {"line": 5, "condition": "x"}]
        found = it.ask("setBreakpoints", source=SOURCE, breakpoints=asked)["breakpoints"]
        need([row["verified"] for row in found] == [True, True, False, False], "breakpoints are", found)
        need(found[1]["line"] == 22, "a line without a statement is", found[1])
        it.ask("setExceptionBreakpoints", filters=["fault"])
        need(it.go("configurationDone")["reason"] == "entry", "it doesn't stop at the entry")
        need(it.ask("threads")["threads"] == [{"id": 1, "name": "courier"}], "the threads are others")
        need(it.go("continue")["reason"] == "breakpoint", "there is no breakpoint")
        need(it.stack() == [("steps_in", 8), ("walk", 15), ("touch_start", 23)], "the calls are", it.stack())
        need(it.values("Locals") == {"street": "0", "steps": "30", "house": "3"}, "it has", it.values("Locals"))
        need(it.values("Locals", depth=1) == {"street": "0"}, "the outer call has", it.values("Locals", depth=1))
        need(list(it.values("Globals")) == ["STREETS"], "the globals are", it.values("Globals"))
        need(it.values("World")["Courier"] == "in Plaza", "the world is", it.values("World"))
        need(it.values("Journal")["2"] == 'chat 1 say 0 "Off I go"', "the journal is", it.values("Journal"))
        it.go("stepBack")
        need(it.stack()[0] == ("steps_in", 7), "back is", it.stack())
        it.go("reverseContinue")
        need(it.stack() == [("touch_start", 22)], "the last breakpoint is at", it.stack())
        need(it.end() == 0, "the adapter didn't end well")


@check
def an_editor_goes_to_the_end_and_back():
    with client() as it:
        it.begin(COURIER, stopOnEntry=True)
        it.ask("setFunctionBreakpoints", breakpoints=[{"name": "steps_in"}])
        it.go("configurationDone")
        need(it.go("continue")["reason"] == "function breakpoint", "no function is met")
        it.ask("setFunctionBreakpoints", breakpoints=[])
        need(it.ask("dataBreakpointInfo", name="steps")["dataId"] == "steps", "no data breakpoint")
        it.ask("setDataBreakpoints", breakpoints=[{"dataId": "steps"}])
        need(it.go("continue")["reason"] == "data breakpoint", "no change is met")
        need(it.values("Locals")["steps"] == "10", "steps is", it.values("Locals"))
        it.ask("setDataBreakpoints", breakpoints=[])
        need(it.go("continue").get("description") == "the end of the run", "it doesn't stop at the end")
        it.go("stepBack")
        need(it.stack() == [("changed", 29)], "back from the end is", it.stack())
        targets = it.ask("gotoTargets", source=SOURCE, line=9)["targets"]
        it.ask("goto", threadId=1, targetId=targets[-1]["id"])
        need(it.wait("stopped")["reason"] == "goto" and it.stack()[0][1] == 9, "goto leads to", it.stack())
        need("takes touch_start" in it.ask("evaluate", expression="info queue", context="repl")["result"], "no queue")
        need(it.ask("evaluate", expression="street")["result"] == "2", "street is another")
        it.go("restart")
        need(it.stack() == [("touch_start", 22)], "the beginning is", it.stack())
        it.ask("terminate")
        it.wait("terminated")
        need(it.end() == 0, "the adapter didn't end well")


@check
def an_editor_sees_why_a_script_stopped():
    with client() as it:
        it.begin("examples/share/share.world", stopOnEntry=False)
        stopped = it.go("configurationDone")
        need(stopped["reason"] == "exception" and stopped["text"] == "Math Error", "it stopped so:", stopped)
        thread = stopped["threadId"]
        need(it.stack(thread)[0][1] == 4 and it.values("Locals", thread)["people"] == "0", "it is in", it.stack(thread))
        found = it.ask("exceptionInfo", threadId=thread)
        need("Math Error at share.lsl:4" in found["description"], "the exception is", found)
        need(it.end() == 0, "the adapter didn't end well")


@check
def wrong_requests_are_refused():
    with client() as it:
        for command, arguments, why in EARLY:
            need(why in it.refused(command, **arguments), command, arguments, "isn't refused so")
        it.capabilities = it.ask("initialize", adapterID="lsl")
        for command, arguments, why in LATE:
            need(why in it.refused(command, **arguments), command, arguments, "isn't refused so")
        it.ask("launch", program=COURIER)
        it.wait("initialized")
        it.go("configurationDone")
        for command, arguments, why in WRONG:
            need(why in it.refused(command, **arguments), command, arguments, "isn't refused so")
        need(it.end() == 0, "the adapter didn't end well")


@check
def broken_messages_are_refused():
    with client() as it:
        for body in (b"{", b"[1]", b'{"seq": 1, "type": "request"}', b'{"seq": 1, "type": "request", "command": 7}'):
            it.write(b"Content-Length: %d\r\n\r\n%s" % (len(body), body))
            message = it.next()
            need(message["type"] == "response" and not message["success"], body, "is answered by", message)
        it.write(framing.framed({"seq": 9, "type": "response", "request_seq": 1, "success": True, "command": "x"}))
        it.capabilities = it.ask("initialize", adapterID="lsl")
        it.write(b"Content-Length: many\r\n\r\n{}")
        message = it.next()
        need(not message["success"] and "no length" in message["message"], "a broken head is answered by", message)
        need(it.ended() == 1, "the adapter didn't end")
