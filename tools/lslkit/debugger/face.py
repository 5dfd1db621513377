"""What the terminal shows: where a script is, its source line, what changed, and what was said on the way."""
import itertools
import re
import sys

from .. import journal, telling
from ..places import bytes_of
from ..showing import Painter
from ..worlds import KEY

QUOTED_KEY = re.compile(rf'"({KEY.pattern})"')
MOST_SHOWN, MOST_LINES = 60, 12
SORTS = {"again": ", once more?", "leave": ", leaving"}
TIERS = {
    1: "some results aren't known",
    2: "only integers are known",
    3: "no values are known",
    4: "no statement is known: only what it says, and its state between segments",
}


def grouped(lines):
    """Lines of which the same ones after one another are one."""
    for line, same in itertools.groupby(lines):
        count = len(list(same))
        yield line if count == 1 else f"{line}, {count:,} times"


class Face:
    """A session, and how it is shown."""

    def __init__(self, session, is_coloured):
        self.session, self.painter = session, Painter(is_coloured)
        self.frame, self.listed, self.step, self.texts, self.is_over = 0, None, 0, {}, False
        # The variable for which the run stopped at the moment.
        self.watched = None

    @staticmethod
    def say(*lines):
        for it in lines:
            print(it)
        sys.stdout.flush()

    def paint(self, sort, text):
        return self.painter.paint(sort, text)

    # Words

    def value(self, text, most=None):
        """A value with names in place of keys, cut where it is long."""
        names = self.session.names
        said = KEY.sub(names.named_key, QUOTED_KEY.sub(lambda it: names.value(it[1], True), text))
        return said if most is None or len(said) <= most else f"{said[:most]}..."

    def variables(self, shown):
        """Variables in one line; those that changed since the last stop are marked."""
        return ", ".join(self.variable(it, MOST_SHOWN) for it in shown)

    def variable(self, it, most=None):
        said = f"{it.name} = {self.value(it.value, most)}"
        return self.paint("took", f"* {said}") if it.is_new else said

    @staticmethod
    def routine(name):
        """A function or an event, whose state is left out where it is `default`."""
        return name[len("default.") :] if name.startswith("default.") else name

    def place(self, file, line):
        return f"{self.session.file_name(file)}:{line}"

    def source(self, file):
        if file not in self.texts:
            self.texts[file] = (bytes_of(file) or b"").decode(errors="replace").removesuffix("\n").split("\n")
        return self.texts[file]

    def source_line(self, file, number, is_current=False):
        lines = self.source(file)
        text = lines[number - 1].rstrip("\r") if 0 < number <= len(lines) else ""
        line = f"{'->' if is_current else '  '} {number:>4}  {text}".rstrip()
        return self.paint("step", line) if is_current else line

    # What was said on the way

    def way(self, start, end):
        """The lines of the journal between two moments, with the steps in which they were said."""
        trace = self.session.trace
        said = trace.journal[trace.said_by(start) : trace.said_by(end)]
        lines = []
        for it in said:
            lines += self.steps_to(it.step)
            lines.append(f"  | {self.said(it.line)}")
        lines = list(grouped(lines))
        if len(lines) > MOST_LINES:
            lines[:-MOST_LINES] = [f"  | ... and {len(lines) - MOST_LINES:,} before: 'journal' shows them"]
        return lines

    def said(self, line):
        """A line of the journal in words."""
        entry, names = journal.entry_of(line), self.session.names
        who = "" if entry.word == "home" else f"{names.script(entry.number)}: "
        return f"{self.paint('name', who)}{self.paint(entry.word, names.entry(entry))}"

    def steps_to(self, step):
        """The lines of the steps from the last one that was shown to this one, without those before it that only let
        scripts run; of this one alone where it comes before."""
        world, last = self.session.world, self.step
        self.step = step
        clocks = telling.clocks(world)
        numbers = range(last if step > last else step - 1, min(step, len(world.steps))) if step not in (0, last) else ()
        shown = [it for it in numbers if world.steps[it].word not in ("run", "go") or it == step - 1]
        return list(grouped(self.step_line(clocks[it], world.steps[it]) for it in shown))[-MOST_LINES:]

    def step_line(self, clock, step):
        return self.paint("step", f"[{telling.seconds(clock)}] {self.session.names.step(step)}")

    # Stops

    def go(self, moment, why=None, watched=None):
        """Goes to a moment, and shows it; says so where there is none."""
        if moment is None:
            self.say("-- there is nothing to go to")
            return False
        self.watched = watched
        start, self.frame, self.listed = self.session.moment.number, 0, None
        way = self.way(start, moment.number) if moment.number > start else []
        self.session.go(moment)
        self.say(*way, *self.steps_to(moment.step), *([self.paint("name", f"-- {why}")] if why else []))
        self.show()
        return True

    def show(self):
        """Shows the moment: why the script stopped for good, or where it is."""
        moment, fault = self.session.moment, self.session.fault()
        if fault:
            self.say(*self.fault_lines(fault))
        elif self.session.is_at_end and not moment.file:
            self.say(*self.end_lines())
        elif moment.file:
            self.say(self.head(moment), self.source_line(moment.file, moment.line, True), *self.changes(moment))
        else:
            self.say(f"{moment.number}: {self.said(self.session.trace.line_at(moment.number))}")

    def head(self, moment):
        inside = f", in {self.routine(moment.calls[0].name)}" if moment.calls else ""
        name = self.paint("name", f"{self.session.names.script(moment.script)} at")
        sort = SORTS.get(moment.sort, "")
        return f"{moment.number}: {name} {self.place(moment.file, moment.line)}{inside}{sort}"

    def changes(self, moment):
        """The values of the innermost call and the globals that aren't those of the last stop, and the one for which the
        run stopped."""
        shown = [*self.session.locals_of(moment, 0), *self.session.globals_of(moment)]
        new = [it for it in shown if it.is_new or it.name in ("(result)", self.watched)]
        return [f"         {self.variables(new)}"] if new else []

    def fault_lines(self, fault):
        """Where a script stopped for good, and the variables there."""
        session, moment = self.session, self.session.moment
        at = f" in {session.names.script(moment.script)}"
        if moment.file:
            at = f" at {self.place(moment.file, moment.line)}" + (" or soon after" if moment.is_near else "")
        inside = f", in {self.routine(moment.calls[0].name)}" if moment.calls else ""
        every = [*session.locals_of(moment, 0), *session.globals_of(moment)]
        known = self.variables([it._replace(is_new=False) for it in every])
        yield self.paint("fault", f"{fault}{at}{inside}") + (f", with {known}" if known else "")
        if moment.file:
            yield self.source_line(moment.file, moment.line, True)

    def end_lines(self):
        """The scripts that are still in a handler, or stopped for good, at the end of the run."""
        state, names = self.session.state(), self.session.names
        yield "the end of the run"
        scripts = [it for whole in state.objects for it in whole.scripts]
        for number, it in enumerate(scripts, 1):
            if it.rest == "running":
                line = it.calls[0].line if it.calls else 0
                doing = f"asleep until {telling.seconds(it.wakes)}" if it.wakes > state.clock else "still running"
                file = self.session.trace.scripts[number][1]
                place = f" at {self.place(file, line)}" if line else ""
                yield self.paint("drop", f"  {names.script(number)} is {doing}, in {it.event.name}{place}")
            elif it.rest == "dead":
                yield self.paint("fault", f"  {names.script(number)} stopped for good: {it.fault}")
