"""A world that is debugged: the moment that is shown, moves from it, and what is there."""
import os
from collections import namedtuple

from .. import telling, worlds
from ..program import world_of
from . import stopping
from .breakpoints import Breakpoint, beside, condition_of
from .core import Core

# Moves of one script, which begin at the last thing that it did.
OF_SCRIPTS = ("step", "back", "next", "reverse-next", "finish", "reverse-finish")
# What moves over calls are where there is no call.
OUTSIDE = {"next": "step", "reverse-next": "back"}
FAULT = "fault "
# A variable as it is shown: `is_new` where its value is another one than at the last stop.
Shown = namedtuple("Shown", "name kind value is_new")


class Empty(Exception):
    """A world without a moment."""


class Session:
    def __init__(self, binary, path):
        self.core = Core(binary, path)
        try:
            self.trace = self.core.trace()
            if not self.trace.count:
                raise Empty("nothing is in this world that one could debug")
            self.world = worlds.read(world_of(path))
            self.names = telling.Names(self.world)
            self.breakpoints, self.made = {}, 0
            # The script that one looks at, and the values at the last stop.
            self.script, self.known, self.states, self.stops = 1, {}, {}, {}
            self.moment = self.first()
        except BaseException:
            self.core.close()
            raise
        self.look()

    def close(self):
        self.core.close()

    # Moments

    def first(self):
        """The first moment at which one may stop, or the first of all."""
        return self.core.seek(1, "at", 0, 0) or self.at(1)

    def at(self, number):
        return self.whole(self.core.seek(number, "to", number))

    def whole(self, moment):
        """The moment, where a script stops for good with all that is known there."""
        line = self.trace.line_at(moment.number) or ""
        if not line.startswith(FAULT) or not moment.step:
            return moment
        if moment.number not in self.stops:
            number = int(line.split(" ")[1])
            self.stops[moment.number] = stopping.whole(self.core, moment, number, self.trace.scripts[number][1])
        return self.stops[moment.number]

    def end(self):
        return self.at(self.trace.count)

    @property
    def is_at_end(self):
        return self.moment.number >= self.trace.count

    def look(self):
        """Looks at the script that does something at the moment."""
        self.script = self.moment.script or self.script

    def go(self, moment):
        """Goes to a moment, with what was known at the last one kept for marks."""
        self.known = self.values_at(self.moment)
        self.moment = self.whole(moment)
        self.look()

    def seen(self, script=None):
        """The moment of what a script did last; none where it hasn't done anything yet."""
        script = script or self.script
        if script == self.moment.script:
            return self.moment
        latest = self.trace.latest(self.moment.number, script)
        return None if latest is None else self.at(latest)

    def move(self, how, *words):
        """The moment to which a move leads; none where it leads nowhere."""
        seen = (self.seen() if how in OF_SCRIPTS else None) or self.moment
        if not seen.calls:
            how = OUTSIDE.get(how, how)
        return self.core.seek(seen.number, how, *words)

    # What is there

    def values_at(self, moment):
        """All values at a moment, by script, depth, routine and name."""
        found = {(moment.script, it.name): it.value for it in moment.values}
        for depth, call in enumerate(reversed(moment.calls)):
            found.update({(moment.script, depth, call.name, it.name): it.value for it in call.variables})
        return found

    def changed(self, key, value):
        return key in self.known and self.known[key] != value

    def locals_of(self, moment, frame):
        """The variables of a call, the innermost being 0."""
        if frame >= len(moment.calls):
            return []
        call, depth = moment.calls[frame], len(moment.calls) - 1 - frame
        keys = [((moment.script, depth, call.name, it.name), it) for it in call.variables]
        return [Shown(*it, self.changed(key, it.value)) for key, it in keys]

    def globals_of(self, moment):
        return [Shown(*it, self.changed((moment.script, it.name), it.value)) for it in moment.values]

    def variable(self, name, frame):
        """A visible variable; an inner one hides an outer one. None where there is none."""
        moment = self.seen()
        found = [*self.globals_of(moment), *self.locals_of(moment, frame)] if moment else []
        return next((it for it in reversed(found) if it.name == name), None)

    def state(self):
        """The world's state before the segment of the moment; at the end that of the whole run."""
        place = None if self.is_at_end else (max(self.moment.step, 1), max(self.moment.segment - 1, 0))
        if place not in self.states:
            self.states = {place: self.core.state(place)}
        return self.states[place]

    def fault(self):
        """The fault by which a script stops at the moment, as its words; none where none does."""
        line = self.trace.line_at(self.moment.number) or ""
        return line.split('"')[1] if line.startswith(FAULT) else None

    def file_name(self, file):
        """A file's name without its folders, where no other one has that."""
        names = [os.path.basename(it) for it in self.trace.files()]
        return os.path.basename(file) if names.count(os.path.basename(file)) < 2 else file

    # Running to a condition

    def add(self, text, is_temporary=False):
        """A new breakpoint of these words."""
        condition, said = condition_of(self.trace, text, self.file())
        self.made += 1
        self.breakpoints[self.made] = Breakpoint(self.made, said, condition, is_temporary)
        return self.breakpoints[self.made]

    def file(self):
        """The file of a line that is named alone."""
        moment = self.seen()
        if moment and moment.file:
            return moment.file
        files = self.trace.files()
        return files[0] if len(files) == 1 else None

    def until(self, text, is_back=False):
        """The next or last moment of a condition in words."""
        return beside(self.core, self.moment.number, condition_of(self.trace, text, self.file())[0], is_back)

    def run(self, conditions, is_back=False):
        """The nearest moment of several conditions, with the one that has it; none where none has one."""
        found = []
        for it in conditions:
            moment = beside(self.core, self.moment.number, it.condition, is_back)
            if moment is not None:
                found.append((moment, it))
        choose = max if is_back else min
        return choose(found, key=lambda it: it[0].number) if found else None
