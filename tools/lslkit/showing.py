"""Shows a journal readably: steps and clock between its lines, names in place of numbers, and a summary."""
import re
import sys
from collections import Counter

from . import faulting, faults, journal, observing, past, telling, timeline, worlds
from .places import write_text
from .quoting import quoted

COLOURS = {
    "step": "1;36",
    "cross": "1;35",
    "name": "2",
    "took": "1",
    "chat": "32",
    "owner": "32",
    "fault": "1;31",
    "drop": "33",
    "clear": "35",
    "done": "2",
    "home": "2",
}
FAULT = re.compile(r'(?m)^fault (\d+) ".*"$')


class Painter:
    """Colours on a terminal."""

    def __init__(self, is_coloured):
        self.is_coloured = is_coloured

    def paint(self, sort, text):
        return f"\033[{COLOURS[sort]}m{text}\033[0m" if self.is_coloured and sort in COLOURS else text


def lines(entries, world, painter, observed=None, hidden=()):
    """The readable lines, with the steps and states that were observed. Those of `hidden` words aren't shown."""
    names, steps = telling.Names(world), observed.steps if observed else None
    states = observed.states if observed else {}
    clocks = telling.clocks(names.world)
    width = max([8, *map(len, names.scripts)])
    shown = 0
    for place, entry in enumerate(entries):
        until = min(steps[place] + 1, len(clocks)) if steps else 0
        for number in range(shown, until):
            if names.world.steps[number].word not in hidden:
                yield step_line(names, number, clocks[number], painter)
        shown = max(shown, until)
        if entry.word in hidden:
            continue
        if entry.word == "home":
            yield painter.paint("home", names.entry(entry))
            continue
        indent = "  " if entry.word in ("took", "drop", "clear") else "    "
        name = painter.paint("name", f"{names.script(entry.number):>{width}} ")
        yield name + indent + painter.paint(entry.word, names.entry(entry, states.get(place)))


def step_line(names, number, clock, painter):
    step = names.world.steps[number]
    sort = "cross" if step.word in ("cross", "pause") else "step"
    return painter.paint(sort, f"[{telling.seconds(clock)}] {names.step(step)}")


def summary(entries, world, painter):
    """What each script did, as a table; and what went wrong."""
    names, handlers = telling.Names(world), journal.handlers(entries)
    counts = Counter((it.word, it.number) for it in entries)
    charges = {}
    for it in handlers:
        charges[it.script] = max(charges.get(it.script, 0), it.charge or 0)
    scripts = sorted({it.number for it in entries if it.word != "home"} | set(range(1, len(names.scripts) + 1)))
    width = max([6, *(len(names.script(it)) for it in scripts)])
    yield f"{'script':<{width}}  events  dropped  said  faults  greatest charge"
    for it in scripts:
        said = counts["chat", it] + counts["owner", it]
        row = f"{names.script(it):<{width}}  {counts['took', it]:>6}  {counts['drop', it]:>7}  {said:>4}"
        charge = f"{charges[it]:,}" if charges.get(it) else "-"
        yield painter.paint("fault" if counts["fault", it] else "", f"{row}  {counts['fault', it]:>6}  {charge:>15}")
    for it in handlers:
        if it.end is None:
            yield painter.paint("drop", f"{names.script(it.script)} is still in {it.event}")
    dropped, faults = (sum(it.word == word for it in entries) for word in ("drop", "fault"))
    yield f"{counted(len(handlers), 'event')} handled, {dropped:,} dropped, {counted(faults, 'fault')}"


def counted(count, noun):
    return f"{count:,} {noun}" + ("" if count == 1 else "s")


def with_places(binary, text, world_text):
    """The journal's text with where each script stopped and its variables there, after the fault."""
    history = past.Past(binary, world_text)

    def placed(found):
        said = faulting.lines(history, int(found[1]))
        return f"fault {found[1]} {quoted(said[0])}" if said else found[0]

    return FAULT.sub(placed, text)


def show(binary, text, world_text, html=None, is_shown=True, is_coloured=None, hidden=()):
    """Prints a journal readably, or writes its page; the status."""
    try:
        entries = journal.read(text)
    except ValueError as error:
        print(faults.explained(text.split("\n")[0]) or f"show: {error}", file=sys.stderr)
        return 1
    world = worlds.read(world_text) if world_text else None
    observed = observing.observe(binary, world_text, entries) if binary and world else None
    if world and world.steps and not (observed and observed.steps):
        print("show: the steps are left out: the world wasn't played again to this journal", file=sys.stderr)
    if html:
        names = [it.prims[0].name for it in world.objects if it.prims[0].name] if world else []
        told = with_places(binary, text, world_text) if observed else text
        write_text(html, timeline.page(told, world_text, observed, ", ".join(names[:4]) or "Journal"))
        print(f"show: {html} is written", file=sys.stderr)
    if is_shown or not html:
        painter = Painter(sys.stdout.isatty() if is_coloured is None else is_coloured)
        for line in lines(entries, world, painter, observed, hidden):
            print(line)
        print()
        for line in summary(entries, world, painter):
            print(line)
    return 0
