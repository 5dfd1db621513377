"""What a world was after each of its steps: its journal so far, and its state. Each is worked out once, when it is
asked for."""
import os
import tempfile
from collections import namedtuple

from . import journal, program, snapshot, telling, worlds
from .places import write_text

# After a number of steps: the entries of the journal, and the state or none.
Moment = namedtuple("Moment", "entries state")
# The steps that only have scripts run.
RUNS = ("run", "go", "pause")


def without_steps(text, count):
    """A world file's text with its first steps alone."""
    world = worlds.read(text)
    lines = text.split("\n")
    for step in world.steps[count:]:
        lines[step.line - 1] = ""
    return "\n".join(lines)


def cut(text, step, ticks):
    """The text with the steps before one, and of that one as many segments."""
    world = worlds.read(text)
    lines = without_steps(text, step + 1).split("\n")
    it = world.steps[step]
    lines[it.line - 1] = " ".join([it.word, *it.fields[:-1], str(ticks)])
    return "\n".join(lines)


def has_stopped(moment, number):
    return moment is not None and any(it.word == "fault" and it.number == number for it in moment.entries)


class Past:
    """The moments of a world file's text."""

    def __init__(self, binary, text):
        self.binary, self.text, self.world, self.found = binary, text, worlds.read(text), {}

    def after(self, count):
        """The moment after as many steps; none where the world isn't played."""
        count = min(count, len(self.world.steps))
        if count not in self.found:
            self.found[count] = moment(self.binary, without_steps(self.text, count))
        return self.found[count]

    def label(self, step):
        """A step in words: its number among those that aren't runs, and what is done."""
        acts = [at for at in range(step + 1) if self.world.steps[at].word not in RUNS]
        if not acts:
            return "at the start"
        return f"at step {len(acts)}, {telling.Names(self.world).step(self.world.steps[acts[-1]])}"

    def count_after(self, count):
        """How many entries there are after as many steps."""
        found = self.after(count)
        return len(found.entries) if found else 0

    def step_of_fault(self, number):
        """The step at which a script stopped for good; none where it didn't."""
        low, high = -1, len(self.world.steps)
        if not has_stopped(self.end(), number):
            return None
        while low < high - 1:
            middle = (low + high) // 2
            low, high = (low, middle) if has_stopped(self.after(middle), number) else (middle, high)
        return max(0, high - 1)

    def end(self):
        return self.after(len(self.world.steps))

    def new_at(self, step):
        """The entries that a step added."""
        before, behind = self.after(step), self.after(step + 1)
        return behind.entries[len(before.entries) :] if before and behind else []


def stops(binary, text, number):
    """Whether a script stops for good in a world."""
    with tempfile.TemporaryDirectory(prefix="lsl-past-") as room:
        path = os.path.join(room, "world")
        write_text(path, text)
        output = program.run(binary, ["replay", path]).output
    return b"\nfault %d " % number in b"\n" + output


def moment(binary, text):
    """The journal and the state after a world's steps."""
    with tempfile.TemporaryDirectory(prefix="lsl-past-") as room:
        path, image = os.path.join(room, "world"), os.path.join(room, "frozen")
        write_text(path, text)
        ran = program.run(binary, ["freeze", path])
        if ran.status:
            return None
        lines = ran.output.decode(errors="surrogateescape").split("\n")[:-1]
        write_text(image, lines[-1] + "\n")
        shown = program.lines_of(program.run(binary, ["view", image, path]).output)
    entries = [journal.entry_of(it) for it in lines[:-1]]
    return Moment(entries, snapshot.read(lines[-1].encode(), worlds.read(text), shown))
