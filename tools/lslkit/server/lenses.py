"""Code lenses above what can be played and debugged, the playing, and the words that start the debugger."""
import os
import re
import shlex
import signal
import subprocess
import sys
import tempfile

from ..places import in_top

PLAY, DEBUG = "lsl.play", "lsl.debug"
# The words of `lsl play` by which a script gets an event.
EVENTS = {
    "touch_start": ["--touch", "Someone"],
    "touch": ["--touch", "Someone"],
    "touch_end": ["--touch", "Someone"],
    "listen": ["--say", "hello"],
    "timer": ["--after", "1m"],
    "link_message": ["--message", "0 hello"],
    "changed": ["--changed", "CHANGED_OWNER"],
    "on_rez": ["--rez", "0"],
}
SECONDS = 10


def lenses(document, _):
    """Lenses on a script's state `default`, and on a world file's `begin`; and one on each handler of an event that a
    step brings."""
    place = begin_of(document) if document.is_world else default_of(document.script)
    if place is None:
        return []
    found = [lens(document, place, "play", PLAY), lens(document, place, "debug", DEBUG, [])]
    handlers = [] if document.is_world else handlers_of(document.script)
    return found + [lens(document, at, "debug", DEBUG, EVENTS[event]) for event, at in handlers if event in EVENTS]


def lens(document, place, title, command, *more):
    made = {"title": title, "command": command, "arguments": [document.uri, *more]}
    return {"range": document.lines.range(*place), "command": made}


def handlers_of(script):
    """The event and the place of each handler."""
    for _, inside in script.states():
        for number in inside:
            declared = script.declared_by(script.pieces[number])
            if declared:
                yield declared.name, script.place_of(number, declared.at, True, False)[:2]


def debug(document, words):
    """What to type in a terminal, for an editor that doesn't start the debugger itself."""
    return f"lsl debug {' '.join(map(shlex.quote, [document.path or document.name, *words]))}"


def begin_of(document):
    found = re.search(rb"(?m)^[ \t]*(begin)[ \t]*\r?$", document.text)
    return found.span(1) if found else None


def default_of(script):
    number = script.own["state"].get("default")
    if number is None:
        return None
    return script.place_of(number, script.declared_by(script.pieces[number]).at, True, False)[:2]


def play(document, folder):
    """What the script or world does, as text. It is played as the editor has it, and for some seconds at most."""
    with tempfile.TemporaryDirectory(prefix="lsl-") as room:
        name = os.path.join(room, document.name)
        with open(name, "wb") as file:
            file.write(document.text)
        words = ["replay", name, "--show"] if document.is_world else ["play", name, "--after", "0s"]
        how = {"stdin": subprocess.DEVNULL, "stdout": subprocess.PIPE, "stderr": subprocess.STDOUT, "cwd": folder}
        environment = {**os.environ, "PYTHONPATH": in_top("tools")}
        command = [sys.executable, "-m", "lslkit.server.player", *words]
        with subprocess.Popen(command, env=environment, start_new_session=True, **how) as playing:
            said = said_by(playing)
        return said.decode(errors="replace").replace(f"{room}/", "")


def said_by(playing):
    try:
        return playing.communicate(timeout=SECONDS)[0]
    except subprocess.TimeoutExpired:
        os.killpg(playing.pid, signal.SIGKILL)
        return playing.communicate()[0] + f"It was ended after {SECONDS} seconds.\n".encode()
