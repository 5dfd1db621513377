"""Where a script stopped: the line, the function or the event, the variables there, and what the memory was spent on.

The debugger's trace tells it. Where its core can't be had, it is the last saved call of the state before."""
import contextlib
import os
import tempfile
from collections import namedtuple

from . import journal, kit, making, past, places, snapshot, stating, viewing
from .debugger import core
from .debugger.session import Session

# Where a script stopped: its fault, its file, the line, the function or event, the variables there as names and values,
# the calls as names and lines, and the script's state before the segment. Where it `is_near` it stopped there or soon
# after.
Place = namedtuple("Place", "fault file line routine variables calls before is_near")
MOST_SPENT, MOST_CALLS, LAST_CALLS = 5, 6, 2
MEMORY = "Stack-Heap Collision"


def find(history, number):
    """Where the script of this number stopped; none where it didn't, or can't be followed."""
    step = history.step_of_fault(number)
    if step is None:
        return None
    binary = debugger()
    return (traced(binary, history, number) if binary else None) or saved(history, step, number)


def debugger():
    """The debugger's core; none where there is none."""
    try:
        return making.debugger()
    except kit.NotMade:
        return None


def traced(binary, history, number):
    """Where a script stopped, by the trace of its world; none where that doesn't tell it."""
    with tempfile.TemporaryDirectory(prefix="lsl-fault-") as room, contextlib.ExitStack() as opened:
        path = os.path.join(room, "world")
        places.write_text(path, history.text)
        try:
            session = opened.enter_context(contextlib.closing(Session(binary, path)))
        except core.Refused:
            return None
        trace = session.trace
        session.go(session.at([it for it in trace.faults() if trace.line_at(it).split(" ")[1] == str(number)][-1]))
        moment = session.moment
        if not moment.calls:
            return None
        variables = [*session.locals_of(moment, 0), *session.globals_of(moment)]
        known = [(it.name, core.value_of(it.value)) for it in variables if it.value != core.UNKNOWN]
        calls = [(it.name.rpartition(".")[2], it.line) for it in moment.calls]
        before = snapshot.scripts(session.state())[number - 1]
        found = [session.fault(), moment.file, moment.line, calls[0][0], known, calls, before]
        return Place(*found, moment.is_near)


def saved(history, step, number):
    """Where a script stopped, by its state before the segment."""
    it = history.world.steps[step]
    before = before_fault(history, step, number) if it.word in ("run", "go") else history.after(step)
    script = snapshot.scripts(before.state)[number - 1] if before and before.state else None
    fault = next(it for it in history.new_at(step) if it.word == "fault" and it.number == number)
    file, calls = history.world.scripts[number - 1].file, [(it.name, it.line) for it in script.calls] if script else []
    routine, line = calls[0] if calls else (script.event.name if script and script.event else "", 0)
    known = variables(script, file, routine)
    return Place(journal.fields(fault.rest)[0][0], file, line, routine, known, calls, script, True)


def before_fault(history, step, number):
    """The moment before the segment in which a script stops."""
    low, high = 0, int(history.world.steps[step].fields[-1])
    while low < high - 1:
        middle = (low + high) // 2
        is_over = past.stops(history.binary, past.cut(history.text, step, middle), number)
        low, high = (low, middle) if is_over else (middle, high)
    return past.moment(history.binary, past.cut(history.text, step, low))


def variables(script, file, routine):
    """The variables of the innermost call of a function or an event, and the globals."""
    if script is None:
        return []
    routines = viewing.routines_of(places.bytes_of(file) or b"")
    call = next((it for it in script.calls if it.name == routine), None)
    names = viewing.slots_of(routines, script.state, routine)
    return [*zip(names, call.slots if call else []), *script.globals]


def lines(history, number):
    """The words for a reader: where it stopped, its variables, and what its memory was spent on."""
    place = find(history, number)
    if place is None:
        return []
    teller = stating.Teller(history.world)
    known = ", ".join(f"{name} = {cut(teller.value(value))}" for name, value in place.variables)
    where = f"{os.path.basename(place.file)}:{place.line}" if place.line else os.path.basename(place.file)
    where += " or soon after" if place.is_near else ""
    inside = f", in {place.routine}" if place.routine else ""
    said = [f"{place.fault} at {where}{inside}" + (f", with {known}" if known else "")]
    return said + ([*stack(place), *memory(place, teller)] if place.fault == MEMORY and place.before else [])


def stack(place):
    """The calls around the one in which a script stopped."""
    outer = [f"  called by {name} at line {line}" for name, line in place.calls[1:]]
    left = len(outer) - MOST_CALLS
    return [*outer[: MOST_CALLS - LAST_CALLS], f"  .. {left:,} more", *outer[-LAST_CALLS:]] if left > 0 else outer


def memory(place, teller):
    """What the memory was spent on before the fault."""
    script = place.before
    said = [f"before it {script.charge:,} of {script.limit:,} bytes were charged:"]
    for name, size, value in stating.spent(script)[:MOST_SPENT]:
        shown = f": {cut(teller.value(value))}" if value is not None else ""
        said.append(f"  {size:,} by {name}{shown}")
    return [*said, f"  and then by what line {place.line} was making"]


def cut(text):
    return text if len(text) <= 60 else f"{text[:60]}..."
