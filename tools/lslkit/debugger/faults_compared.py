"""Compares where random scripts stop for good, as a session of the debugger shows it, with what was worked out beside
(`random_faults`)."""
import contextlib
import os
import tempfile
from collections import Counter

from .. import frozen
from ..places import write_text
from ..standing import world_of_once
from . import random_faults
from .comparing import is_assigned
from .face import Face
from .session import Session

# Values of which a trace has the beginning alone.
MOST, UNKNOWN = 1000, "?"


def shown(session):
    """Where the debugger shows that the script stops, and whether it says that it did so there or soon after."""
    number = session.trace.faults()[-1]
    session.go(session.at(number))
    moment = session.moment
    variables = [*session.globals_of(moment), *session.locals_of(moment, 0)]
    values = {it.name: it.value for it in variables if len(it.value) < MOST and it.value != UNKNOWN}
    routine = Face.routine(moment.calls[0].name) if moment.calls else None
    found = random_faults.Stop(session.fault(), moment.line, routine, values, len(moment.calls), ())
    return found, moment.is_near


def differences(found, wanted, is_near, text):
    """What is shown otherwise. What the statements under way have assigned isn't told any more."""
    names = ["fault"] if is_near else ["fault", "routine", "depth", "line"]
    for it in names:
        if getattr(found, it) != getattr(wanted, it):
            yield f"{it} is {getattr(wanted, it)}, shown {getattr(found, it)}"
    lines = text.split("\n")
    under_way = "\n".join(lines[it - 1] for it in wanted.lines)
    for name, value in wanted.values.items() if not is_near else ():
        if not is_assigned(name, under_way) and name in found.values and found.values[name] != frozen.word(value):
            yield f"{name} is {frozen.word(value)}, shown {found.values[name]}"


def compare(binary, seeds):
    """Compares as many scripts that stop as there are seeds. Whether all are shown as they were worked out."""
    counts, wrong, seed = Counter(), 0, seeds.start - 1
    with tempfile.TemporaryDirectory() as room:
        script, path = os.path.join(room, "s.lsl"), os.path.join(room, "s.world")
        write_text(path, world_of_once(script))
        while sum(counts.values()) < len(seeds):
            seed += 1
            text, wanted = random_faults.made(seed)
            if wanted is None:
                continue
            write_text(script, text)
            with contextlib.closing(Session(binary, path)) as session:
                if not session.trace.faults():
                    said = [f"it stops with {wanted.fault} at line {wanted.line}, and goes on"]
                    is_near = False
                else:
                    found, is_near = shown(session)
                    said = list(differences(found, wanted, is_near, text))
            counts[f"{wanted.fault} there or soon after" if is_near else wanted.fault] += 1
            wrong += bool(said)
            for it in said:
                print(f"script {seed}: {it}"[:200], flush=True)
    told = ", ".join(f"{count} {name}" for name, count in sorted(counts.items()))
    print(f"{sum(counts.values())} scripts stopped, {wrong} are shown otherwise: {told}")
    return wrong == 0
