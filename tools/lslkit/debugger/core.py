"""The debugger's core, the program `lsl_debug`: runs it, and reads the lines that it prints (docs/DEBUGGING.md)."""
import os
import re
import subprocess
import tempfile
from bisect import bisect_right
from collections import defaultdict, namedtuple

from .. import frozen, program
from ..places import bytes_of
from ..quoting import QUOTED, unquoted

WORD = re.compile(rf"{QUOTED}(?:\.\.)?|\[(?:[^\"\]]|{QUOTED})*\]|[^ ]+")
ITEM = re.compile(rf"{QUOTED}|-?\d+")
NOWHERE, UNKNOWN = "nowhere", "?"
# The moments at which one stops, by the sorts of their marks.
STOPS = ("stmt", "again", "leave")

# A file of scripts, and how much of it is known: 0 all .. 4 nothing.
Unit = namedtuple("Unit", "file tier")
# A place of a text at which a moment may be: `routine` is the function or the event, `first` and `last` are lines.
Mark = namedtuple("Mark", "unit routine sort first last")
# A line of the journal, and its moment.
Said = namedtuple("Said", "moment step segment line")
# Where a move led: `calls` has the innermost first, `values` are the script's globals, and `said` is the journal's line.
# Where a script stopped for good and `is_near`, it did so there or soon after.
Moment = namedtuple("Moment", "number count step segment script file line sort calls values said is_near", defaults=[False])
Call = namedtuple("Call", "name line variables")
Variable = namedtuple("Variable", "name kind value")


class Refused(Exception):
    """The core's status, and what it said on standard output and on standard error."""

    def __init__(self, ran):
        super().__init__(ran.notes.decode(errors="replace").strip() or f"lsl_debug ended with status {ran.status}")
        self.status, self.output = ran.status, ran.output.decode(errors="surrogateescape")


def words_of(line):
    """The words of a line; texts and lists are one word each, as they are written."""
    return [it[0] for it in WORD.finditer(line)]


def text_of(word):
    """The text that a word in quotes is."""
    return unquoted(word[1:-1])


class Core:
    """The core on a world file, whose trace is kept in a file until `close`."""

    def __init__(self, binary, world):
        self.binary, self.world = binary, world
        self.room = tempfile.TemporaryDirectory(prefix="lsl-debug-")
        self.traced = os.path.join(self.room.name, "trace")

    def close(self):
        self.room.cleanup()

    def run(self, *words):
        """The output of a run that ends well."""
        ran = program.run(self.binary, words)
        if ran.status:
            raise Refused(ran)
        return ran.output

    def write_trace(self):
        """Keeps the trace of the world. How many bytes it has."""
        with open(self.traced, "wb") as file:
            return file.write(self.run("trace", self.world))

    def trace(self):
        """The trace of the world, which is kept."""
        self.write_trace()
        return Trace((bytes_of(self.traced) or b"").decode(errors="surrogateescape"))

    def seek(self, moment, *move):
        """The moment to which a move leads; none where it leads nowhere."""
        return moment_of(program.lines_of(self.run("seek", self.traced, str(moment), *map(str, move))))

    def state(self, place=None):
        """The state of the world at a step and a segment, or at its end."""
        return state_of(program.lines_of(self.shown(place)))

    def shown(self, place=None):
        """The same as it is printed, after the journal so far."""
        at = ["--at", *map(str, place)] if place else []
        return self.run("state", *at, self.world)


class Trace:
    """What a trace says of the whole run: files, marks, which script does something at which moment, and the journal.
    Moments are counted from 1."""

    def __init__(self, text):
        self.units, self.marks, self.journal, self.count = {}, {}, [], 0
        # For each script the moments at which it did something.
        self.acts, self.scripts, self.variables = defaultdict(list), {}, set()
        for line in text.split("\n"):
            word, _, rest = line.partition(" ")
            take = getattr(self, f"take_{word}", None)
            if take:
                take(rest)

    def take_file(self, rest):
        number, file, tier = words_of(rest)
        self.units[int(number)] = Unit(text_of(file), int(tier))

    def take_mark(self, rest):
        number, unit, routine, sort, first, last = rest.split(" ")
        self.marks[int(number)] = Mark(int(unit), routine, sort, int(first), int(last))

    def take_name(self, rest):
        self.variables.add(rest.rpartition(" ")[2])

    def take_global(self, rest):
        self.take_name(rest)

    def take_script(self, rest):
        number, unit, name = words_of(rest)
        self.scripts[int(number)] = text_of(name), self.units[int(unit)].file

    def take_at(self, rest):
        self.count += 1
        self.acts[int(rest.split(" ", 3)[2])].append(self.count)

    def take_said(self, rest):
        self.count += 1
        step, segment, line = rest.split(" ", 2)
        self.journal.append(Said(self.count, int(step), int(segment), line))
        word, number = line.split(" ")[:2]
        if word not in ("home", "drop"):
            self.acts[int(number)].append(self.count)

    def latest(self, moment, script):
        """The last moment by now at which a script did something; none where it hasn't yet."""
        own = self.acts[script]
        at = bisect_right(own, moment)
        return own[at - 1] if at else None

    def said_by(self, moment):
        """How many lines of the journal there are by a moment."""
        return bisect_right([it.moment for it in self.journal], moment)

    def line_at(self, moment):
        """The journal's line that a moment is; none where it is another."""
        at = self.said_by(moment)
        found = self.journal[at - 1] if at else None
        return found.line if found and found.moment == moment else None

    def faults(self):
        """The moments at which scripts stop for good."""
        return [it.moment for it in self.journal if it.line.startswith("fault ")]

    def files(self):
        return [it.file for it in self.units.values()]

    def statement_lines(self, file):
        """The lines of a file at which a statement begins."""
        units = [number for number, it in self.units.items() if it.file == file]
        return {it.first for it in self.marks.values() if it.unit in units and it.sort in ("stmt", "again")}

    def routines(self):
        """The functions and events of all files, an event with its state and without."""
        found = {it.routine for it in self.marks.values()}
        return found | {it.rpartition(".")[2] for it in found}


def moment_of(lines):
    """The moment that lines of `seek` say."""
    if lines[:1] == [NOWHERE]:
        return None
    number, count, step, segment = 0, 0, 0, 0
    script, file, line, sort, calls, values, said = 0, None, 0, "said", [], [], ""
    for it in lines:
        word, *rest = words_of(it)
        if word == "moment":
            number, count = int(rest[0]), int(rest[2])
        elif word == "place":
            step, segment = map(int, rest)
        elif word == "at":
            script, file, line, sort = int(rest[0]), text_of(rest[1]), int(rest[2]), rest[3]
        elif word == "said":
            said = it.partition(" ")[2]
        elif word == "call":
            calls.append(Call(rest[0], int(rest[1]), []))
        elif word in ("slot", "global"):
            name, kind, value = it.split(" ", 3)[1:]
            (calls[-1].variables if word == "slot" else values).append(Variable(name, kind, value))
    return Moment(number, count, step, segment, script, file, line, sort, calls, values, said)


def value_of(word):
    """The value that a word is: a number, a text or a list. Of a long one only the beginning is known."""
    word = word[:-2] if word.endswith('"..') else word
    if word.startswith("["):
        return [value_of(it[0]) for it in ITEM.finditer(word[1:-1])]
    return text_of(word) if word.startswith('"') else int(word)


def event_of(words):
    return frozen.Event(words[0], [value_of(it) for it in words[1:]], None)


class StateReader:
    """Reads the lines of a state."""

    def __init__(self, clock):
        self.state = frozen.State(clock, [])

    def take(self, line):
        word, *rest = words_of(line)
        getattr(self, f"take_{word}")(rest)

    def change(self, **fields):
        scripts = self.state.objects[-1].scripts
        scripts[-1] = scripts[-1]._replace(**fields)

    @property
    def script(self):
        return self.state.objects[-1].scripts[-1]

    def take_object(self, words):
        self.state.objects.append(frozen.Object(text_of(words[2]), [text_of(words[1])], [], []))

    def take_pair(self, words):
        self.state.objects[-1].store.append(tuple(map(text_of, words)))

    def take_script(self, words):
        rest = words[3] if words[3] in ("idle", "dead") else "running"
        made = frozen.Script(words[2], None, [], [], [], (0, 0), 0, int(words[6]), rest, None, [], None, int(words[5]))
        self.state.objects[-1].scripts.append(made)

    def take_leaving(self, words):
        self.change(leaving=words[0])

    def take_fault(self, words):
        self.change(fault=text_of(words[0]))

    def take_global(self, words):
        self.script.globals.append((words[0], value_of(words[1])))

    def take_call(self, words):
        self.script.calls.append(frozen.Call(words[0], int(words[1]), [value_of(it) for it in words[2:]], []))

    def take_waits(self, words):
        self.script.calls[-1].operands.extend(map(value_of, words))

    def take_took(self, words):
        self.change(event=event_of(words))

    def take_event(self, words):
        self.script.queue.append(event_of(words))

    def take_listen(self, words):
        number, is_active, channel, *asked = words
        listen = frozen.Listen(int(number), is_active == "on", int(channel), *map(text_of, asked))
        self.script.listens.append(listen)

    def take_timer(self, words):
        self.change(timer=tuple(map(int, words)))

    def take_sleeps(self, words):
        self.change(wakes=int(words[0]))


def state_of(lines):
    """The state that lines of `state` say; the journal before it is left out."""
    start = next(at for at, it in enumerate(lines) if it.startswith("clock "))
    reader = StateReader(int(lines[start].split(" ")[1]))
    for it in lines[start + 1 :]:
        reader.take(it)
    return reader.state
