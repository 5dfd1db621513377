"""What a trace says of each script by a place of the run: its active calls and its values, read from the entries
themselves and not by the core's moves."""
from collections import defaultdict

from .core import Trace, words_of

OVER = ("done", "fault", "clear")


class Frame:
    """A call: its number, its mark and that mark's number, and the words of its values by their slots."""

    def __init__(self, serial):
        self.serial, self.mark, self.number, self.values = serial, None, 0, {}


class Script:
    """`is_cleared` says that its globals may have been reset since they were told."""

    def __init__(self):
        self.frames, self.globals, self.last, self.is_cleared = [], {}, "", False

    def begin(self, serial, outer, mark, number):
        """An entry of a call, which may be a new one."""
        while self.frames and self.frames[-1].serial not in (serial, outer):
            self.frames.pop()
        if not self.frames or self.frames[-1].serial != serial:
            self.frames.append(Frame(serial))
        self.frames[-1].mark, self.frames[-1].number, self.last = mark, number, mark.sort
        self.is_cleared = False

    def set(self, serial, slot, value):
        if serial == 0:
            self.globals[slot] = value
            return
        for it in self.frames:
            if it.serial == serial:
                it.values[slot] = value

    def calls(self):
        """The calls that haven't returned, the outermost first."""
        return self.frames[:-1] if self.last == "leave" else self.frames


class Folded:
    """A trace that is read up to places that come later and later."""

    def __init__(self, text):
        self.tables, self.scripts = Trace(text), defaultdict(Script)
        self.entries, self.at, self.ends = [], 0, {}
        # The unit of each script, and the kinds and names of its globals and of the slots of its routines.
        self.units, self.globals, self.slots = {}, defaultdict(dict), defaultdict(dict)
        # The slot that a name means at each mark.
        self.visible = defaultdict(dict)
        for line in text.split("\n"):
            word, _, rest = line.partition(" ")
            if word in ("at", "said"):
                step, segment = map(int, rest.split(" ", 2)[:2])
                self.ends[step] = max(segment, self.ends.get(step, 0))
                self.entries.append(((step, segment), word, rest, []))
            elif word == "set":
                self.entries[-1][3].append(rest)
            elif word in ("script", "global", "name"):
                self.take_row(word, words_of(rest))

    def take_row(self, word, fields):
        first = int(fields[0])
        if word == "script":
            self.units[first] = int(fields[1])
        elif word == "global":
            self.globals[first][int(fields[1])] = tuple(fields[2:])
        elif fields[1] != "result":
            mark = self.tables.marks[first]
            self.slots[mark.unit, mark.routine][int(fields[1])] = tuple(fields[2:])
            self.visible[first][fields[3]] = int(fields[1])

    def unit_of(self, number):
        """The unit of a script: its file, and how much of it is told."""
        return self.tables.units[self.units[number]]

    def is_hidden(self, frame, slot, name):
        """Whether the name of a slot means another one where a call is."""
        return self.visible[frame.number].get(name, slot) != slot

    def says(self, step, segment):
        """Whether a line of the journal is told in a segment, but for those after the last step."""
        here = [it for it in self.entries if it[0] == (step, segment)]
        return any(it[1] == "said" and " home " not in it[2] for it in here)

    def collisions(self, step):
        """The segment and the script of each Stack-Heap Collision of a step."""
        for place, word, rest, _ in self.entries:
            fields = rest.split(" ", 4)
            if place[0] == step and word == "said" and fields[2] == "fault" and "Collision" in rest:
                yield place[1], int(fields[3])

    def go(self, step, segment):
        """Reads the entries up to the end of a segment."""
        while self.at < len(self.entries) and self.entries[self.at][0] <= (step, segment):
            self.take(*self.entries[self.at][1:])
            self.at += 1

    def take(self, word, rest, sets):
        fields = rest.split(" ")
        if word == "said":
            said, number = fields[2:4]
            if said in OVER:
                self.scripts[int(number)].frames = []
                self.scripts[int(number)].is_cleared = said == "clear"
            return
        script, mark, serial, outer = map(int, fields[2:])
        self.scripts[script].begin(serial, outer, self.tables.marks[mark], mark)
        for it in sets:
            number, slot, value = words_of(it)
            if slot != "result":
                self.scripts[script].set(int(number), int(slot), value)
