"""Where a script stopped for good, where its trace can't tell that exactly.

A mark takes memory. So for want of memory a copy may stop at a mark before the statement in which its script stops, also
a segment earlier, where the script has entered a call. And of some scripts nothing is told, or no values. Copies that
take no more memory tell the statement (`paced`), or else it is near: the state before the segment has the last place
that is known."""
from .. import frozen, viewing
from ..places import bytes_of
from . import paced
from .core import UNKNOWN, Call, Variable
from .segments import late, script_at

MEMORY = "Stack-Heap Collision"


def word_of(value):
    """A value as a trace has it."""
    return frozen.word(list(map(str, value)) if isinstance(value, list) else value)


def whole(core, moment, number, file):
    """The moment of a fault of a script, with all that is known there."""
    if moment.script and MEMORY not in moment.said:
        before = script_at(core, number, moment.step, max(0, moment.segment - 1))
        return filled(moment, calls_of(before, file), values_of(before))
    first = moment.segment if moment.script else 0
    segment = first + late(core, number, moment.step, first)
    script = paced.stop(core, number, moment.step)
    if script is None:
        return near(moment, segment, script_at(core, number, moment.step, max(0, segment - 1)), number, file)
    calls = calls_of(script, file)
    is_told = moment.script and places_of(calls) == places_of(moment.calls)
    return filled(moment, calls, values_of(script)) if is_told else at(moment, segment, script, number, file)


def places_of(calls):
    """What the active calls are of, and the line of the innermost."""
    return [it.name for it in calls], [it.line for it in calls[:1]]


def near(moment, segment, before, number, file):
    """The moment where no copies tell the statement: the script's trace does, up to this segment, or its state."""
    if segment == moment.segment and moment.script:
        found = filled(moment, calls_of(before, file), values_of(before))
    else:
        found = at(moment, segment, before, number, file)
    return found._replace(is_near=True)


def at(moment, segment, script, number, file):
    """The moment with the calls and the values that a script has then."""
    calls = calls_of(script, file)
    found = {"segment": segment, "script": number, "file": file if calls else None}
    line = calls[0].line if calls else 0
    return moment._replace(**found, line=line, calls=calls, values=values_of(script))


def filled(moment, calls, values):
    """The moment with the values of these calls and globals in place of those that aren't told."""
    known = {(depth, call.name, it.name): it for depth, call in enumerate(calls[::-1]) for it in call.variables}
    filled_in, last = [], len(moment.calls) - 1
    for number, call in enumerate(moment.calls):
        variables = [told(it, known.get((last - number, call.name, it.name))) for it in call.variables]
        filled_in.append(call._replace(variables=variables))
    by_name = {it.name: it for it in values}
    return moment._replace(calls=filled_in, values=[told(it, by_name.get(it.name)) for it in moment.values])


def told(variable, known):
    return known if variable.value == UNKNOWN and known else variable


def values_of(script):
    return [Variable(name, kind_of(value), word_of(value)) for name, value in script.globals]


def calls_of(script, file):
    routines = viewing.routines_of(bytes_of(file) or b"")
    return [call_of(it, script.state, routines) for it in script.calls]


def call_of(call, state, routines):
    """A call of a state with the names of its slots, and with its state where it is an event's."""
    is_event = not any(it.state is None and it.name == call.name for it in routines)
    slots = zip(viewing.slots_of(routines, state, call.name), call.slots)
    variables = [Variable(name, kind_of(value), word_of(value)) for name, value in slots]
    return Call(f"{state}.{call.name}" if is_event else call.name, call.line, variables)


def kind_of(value):
    return {int: "integer", list: "list"}.get(type(value), "string")
