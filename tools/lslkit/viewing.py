"""Where the scripts of a frozen world are, for a reader: the object and prim of each, the source lines of its calls,
and the names of their slots."""
import re
from collections import namedtuple

from . import places, tokens
from .quoting import QUOTED, unquoted

SCRIPT = re.compile(rf"script (\d+) {QUOTED} (\S+) (\S+) (\d+)")
CALL = re.compile(r"call (\S+) (\d+)((?: .*)?)", re.S)
VALUE = re.compile(rf' (-?\d+|{QUOTED}|\[(?:[^"\]]|{QUOTED})*\])')
# A function or a handler of a text: its state or none, its name, and the names of its slots.
Routine = namedtuple("Routine", "state name slots")


def lines(shown, world, held=()):
    """The lines for a reader of what `view` wrote of a frozen world of this world file. `held` has for each script
    further lines, of what it holds and waits for."""
    script, state, routines, text, behind = None, None, [], [], []
    for line in shown:
        head, call = SCRIPT.fullmatch(line), CALL.fullmatch(line)
        if head:
            yield from behind
            behind = held[int(head[1]) - 1] if held else []
            script, state = world.scripts[int(head[1]) - 1], head[3]
            source = places.bytes_of(script.file) or b""
            routines, text = routines_of(source), source.split(b"\n")
            yield of_script(script, world, head)
        elif call:
            yield of_call(script, call, slots_of(routines, state, call[1]))
            yield source_line(text, int(call[2]))
    yield from behind


def of_script(script, world, head):
    """A script's name, where it is, and what it rests in."""
    prim, whole = script.prim, world.objects[script.prim.object - 1]
    part = "" if prim.link == 1 else f', prim {prim.link} "{prim.name}"'
    rest, queued = head[4], int(head[5])
    doing = {"idle": "idle", "dead": "stopped by a fault"}.get(rest, f"in {rest}")
    waits = "no event waits" if queued == 0 else "1 event waits" if queued == 1 else f"{queued} events wait"
    who = f'script {head[1]} "{script.name}" of object {prim.object} "{whole.name}"{part}'
    return f"{who}: state {head[3]}, {doing}; {waits}"


def of_call(script, call, names):
    """A call's place and its slots, each with its name."""
    values = [it[1] for it in VALUE.finditer(call[3])]
    named = [*names, *["?"] * len(values)]
    slots = ", ".join(f"{name} = {value}" for name, value in zip(named, values))
    return f"  {script.file}:{call[2]}: {call[1]}" + (f" with {slots}" if slots else "")


def source_line(text, number):
    line = text[number - 1].decode(errors="replace").rstrip("\r") if number <= len(text) else ""
    return f"    {line.strip()}"


def slots_of(routines, state, name):
    """The names of a call's slots: of a handler in its state, or of a function."""
    found = [it for it in routines if it.name == name and it.state in (None, state)]
    return found[-1].slots if found else []


def routines_of(source):
    """The functions and handlers of a text that is accepted."""
    routines, state, depth, opened = [], None, 0, None
    cut = [it for it in tokens.cut(source) if it.sort != "end"]
    for at, token in enumerate(cut):
        behind = cut[at + 1] if at + 1 < len(cut) else None
        if depth == 0 and token.text in ("default", "state"):
            state = token.text if token.text == "default" else behind.text
        elif opened is None and token.sort == "name" and behind is not None and behind.text == "(":
            opened = Routine(state, token.text, [])
            routines.append(opened)
        elif opened is not None and token.text in tokens.TYPES and behind is not None and behind.sort == "name":
            opened.slots.append(behind.text)
        if token.text == "{":
            depth += 1
        elif token.text == "}":
            depth -= 1
            is_over = opened is not None and depth == (0 if opened.state is None else 1)
            opened = None if is_over else opened
            state = None if depth == 0 else state
    return routines
