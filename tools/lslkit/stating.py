"""What a script holds, waits for and listens to, as lines for a reader."""
import itertools

from . import frozen, telling
from .quoting import quoted

NO_KEY = "00000000-0000-0000-0000-000000000000"
MOST_NAMED = 5


def bytes_in_words(count):
    return f"{count:,} byte" + ("" if count == 1 else "s")


def names_of(world):
    """The names of a world, and its owners as such where they have none."""
    names = telling.Names(world)
    for it in world.objects:
        names.keys.setdefault(it.owner.lower(), "the owner")
    return names


class Teller:
    """Says what the scripts of a world are in, with names in place of keys."""

    def __init__(self, world):
        self.world, self.names = world, names_of(world)

    def value(self, value):
        if isinstance(value, list):
            return f"[{', '.join(map(self.value, value))}]"
        return self.names.value(str(value), not isinstance(value, int))

    def event(self, event):
        toucher = f" by {event.toucher[1] or 'someone'}" if event.toucher and event.toucher[1] else ""
        return f"{event.name}({', '.join(map(self.value, event.args))}){toucher}"

    def events(self, queue):
        """The events of a queue; the same ones after one another are said once."""
        for said, same in itertools.groupby(map(self.event, queue)):
            count = len(list(same))
            yield said if count == 1 else f"{said} {count} times"

    def listen(self, listen):
        asked = [f"the name {quoted(listen.name)}"] if listen.name else []
        asked += [f"from {self.value(listen.id)}"] if listen.id not in ("", NO_KEY) else []
        asked += [f"the text {quoted(listen.message)}"] if listen.message else []
        off = "" if listen.is_active else " (off)"
        return f"{listen.number} on {listen.channel}{''.join(f', {it}' for it in asked)}{off}"

    def lines(self, script):
        """All but its state and its calls."""
        yield from self.row("globals", [f"{name} = {self.value(value)}" for name, value in script.globals])
        yield from self.row("waiting", list(self.events(script.queue)), f"{len(script.queue)} of 64: ")
        yield from self.row("listens", [self.listen(it) for it in script.listens])
        if script.timer[0]:
            yield f"timer: each {script.timer[0]} s, due at {telling.seconds(script.timer[1])} s"
        yield f"memory: {script.charge:,} of {bytes_in_words(script.limit)}"

    @staticmethod
    def row(name, items, before=""):
        if items:
            yield f"{name}: {before}{'; '.join(items) if name != 'globals' else ', '.join(items)}"

    def store(self, object_):
        """The store of an object."""
        pairs = [f"{name} = {self.value(value)}" for name, value in object_.store]
        return [f"store: {', '.join(pairs)}"] if pairs else []

    def all(self, state):
        """The lines of a whole world: each object, each script, and what it rests in."""
        yield f"the clock is at {telling.seconds(state.clock)} s"
        number = 0
        for place, object_ in enumerate(state.objects, 1):
            yield f"{self.names.object_name(place)}, in {object_.region or telling.NO_NAME}"
            yield from (f"  {it}" for it in self.store(object_))
            for script in object_.scripts:
                number += 1
                yield f"  {self.names.script(number)}: in the state {script.state}, {rest_of(script, state.clock)}"
                yield from (f"    {self.call(it, self.world.scripts[number - 1].file)}" for it in script.calls)
                yield from (f"    {it}" for it in self.lines(script))

    def call(self, call, file):
        slots = ", ".join(map(self.value, call.slots))
        return f"{file}:{call.line}: {call.name}({slots})" if slots else f"{file}:{call.line}: {call.name}"


def rest_of(script, clock):
    if script.rest == "dead":
        return f"dead: {script.fault}"
    if script.rest == "running":
        event, is_asleep = script.event.name, script.wakes > clock
        return f"asleep in {event} until {telling.seconds(script.wakes)} s" if is_asleep else f"in {event}"
    if script.leaving:
        return f"leaving it for {script.leaving}"
    return "waits for an event" if not script.queue else "idle"


def spent(script):
    """What a script's memory is spent on, the largest first: as names, bytes, and values in words."""
    items = [(f"the global {name}", frozen.charge(it), it) for name, it in script.globals]
    for name in dict.fromkeys(it.name for it in script.calls):
        calls = [it for it in script.calls if it.name == name]
        count = "the call" if len(calls) == 1 else f"{len(calls):,} calls"
        items.append((f"{count} of {name}", sum(map(frozen.charge_of_call, calls)), largest(calls)))
    return sorted(items, key=lambda it: -it[1])


def largest(calls):
    """The largest value that calls hold, where it is most of what they are charged."""
    values = [value for it in calls for value in [*it.slots, *it.operands]]
    found = max(values, key=frozen.charge, default=None)
    is_most = found is not None and 2 * frozen.charge(found) > sum(map(frozen.charge_of_call, calls))
    return found if is_most else None
