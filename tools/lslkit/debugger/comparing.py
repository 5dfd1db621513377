"""Compares the trace of a world with its states after segments: which calls there are, where, and with which values.

What may differ is a variable that a statement has assigned which isn't over yet, as x in `f(x = 3)`: a trace tells it
when the next statement begins. One that is hidden by a declaration which assigns it, as in `integer x = (x = 3)`, is
told when it is assigned next. After a reset the globals are told when the next handler begins. A list is told as one
text, in which [""] is as [], and a separator in an element as one between elements.

A copy may lack the memory for the mark of a call that was just entered, where its script stops in that call. Its fault is
then told a segment too early, and the state there says so: the script hasn't stopped yet."""
import random
import re

from .. import worlds
from ..places import bytes_of
from ..program import world_of
from . import segments
from .core import Core, text_of, value_of, words_of
from .folding import Folded

CUT, SEPARATOR = 1021, "¦"
# The bytes of a trace up to which it is compared, and the most steps of a world that are.
MOST, MOST_STEPS = 20000000, 200
ASSIGNED = r"\b{0}\s*([-+*/%]?=(?!=)|\+\+|--)|(\+\+|--)\s*{0}\b"
HIDING = r"\b(?:integer|string|key|list)\s+{0}\s*=([^;]*)"


class Compared:
    """What was compared: scripts at rest, values that are told later, faults that come a segment later, and what
    differs."""

    def __init__(self):
        self.count, self.later, self.late, self.differs, self.tiers = 0, [], 0, [], set()
        self.is_long = False


def plain(value):
    return SEPARATOR.join(map(str, value)) if isinstance(value, list) else str(value)


def is_same(word, value):
    """Whether a value of a trace is that of a state; of a long one only the beginning is known."""
    is_cut = word.endswith('"..')
    word = word[:-2] if is_cut else word
    known, whole = plain(text_of(word) if word.startswith('"') else value_of(word)), plain(value)
    return known == whole or (len(whole.encode(errors="surrogateescape")) >= CUT and whole.startswith(known))


def is_assigned(name, text):
    """Whether a text assigns a variable."""
    return re.search(ASSIGNED.format(re.escape(name)), text) is not None


def is_hidden_by(name, text):
    """Whether a declaration of the same name assigns a variable, as in `integer x = (x = 3)`."""
    return any(is_assigned(name, it) for it in re.findall(HIDING.format(re.escape(name)), text))


class Comparison:
    def __init__(self, binary, path, most, seed=1):
        self.core, self.path, self.most, self.found = Core(binary, path), path, most, Compared()
        self.choose, self.texts, self.states = random.Random(seed), {}, {}

    def run(self):
        """Compares up to `most` places of each step."""
        with self.core.room:
            if self.core.write_trace() > MOST:
                self.found.is_long = True
                return self.found
            folded = Folded((bytes_of(self.core.traced) or b"").decode(errors="surrogateescape"))
            self.found.tiers = {it.tier for it in folded.tables.units.values()}
            steps = worlds.read(world_of(self.path)).steps
            runs = [step for step, it in enumerate(steps, 1) if it.word in ("run", "go")]
            for step in runs if len(runs) <= MOST_STEPS else sorted(self.choose.sample(runs, MOST_STEPS)):
                self.step(folded, step)
        return self.found

    def state(self, step, segment):
        if (step, segment) not in self.states:
            self.states[step, segment] = self.core.state((step, segment))
        return self.states[step, segment]

    def scripts(self, step, segment):
        return [it for whole in self.state(step, segment).objects for it in whole.scripts]

    def late(self, folded, step):
        """The segments of a step that its trace hasn't: a script goes on there whose fault is told already."""
        found = []
        for segment, number in folded.collisions(step):
            segment += len(found)
            more = segments.late(self.core, number, step, segment)
            found += range(segment + 1, segment + 1 + more)
            self.found.late += more > 0
        return found

    def step(self, folded, step):
        self.states = {}
        late, told = self.late(folded, step), folded.ends.get(step, 0)
        last = told + len(late)
        chosen = range(last + 1)
        if len(chosen) > self.most:
            chosen = sorted({0, last, *self.choose.sample(chosen, self.most - 2)})
        for segment in chosen:
            folded.go(step, segment - sum(it <= segment for it in late))
            if segment + 1 not in late:
                for number, script in enumerate(self.scripts(step, segment), 1):
                    self.found.count += 1
                    for said in self.of_script(folded, number, script):
                        self.found.differs.append(f"{step}.{segment} script {number}: {said}")
        # The segments of the step are counted as they are, where each script tells something.
        if 4 in self.found.tiers:
            return
        if self.said(step, segments.LAST) != self.said(step, last):
            self.found.differs.append(f"{step} has more than {last} segments")
        if last and folded.says(step, told) and self.said(step, last - 1) == self.said(step, last):
            self.found.differs.append(f"{step} has fewer than {last} segments")

    def said(self, step, segment):
        """The journal and the state after a segment, as they are printed."""
        return self.core.shown((step, segment))

    def of_script(self, folded, number, state):
        unit = folded.unit_of(number)
        if unit.tier > 3 or state.rest == "dead":
            return
        script = folded.scripts[number]
        if not script.last and state.rest == "idle":
            # Globals are told from its first handler on.
            return
        frames, calls = script.calls(), state.calls[::-1]
        names = [it.mark.routine.rpartition(".")[2] for it in frames]
        # One call more is there where a function or a handler is about to begin.
        if [it.name for it in calls[: len(names)]] != names or len(calls) > len(names) + 1:
            yield f"its calls are {[it.name for it in calls]}, told {names}"
            return
        lines = self.source(unit.file)
        texts = ["\n".join(lines[it.mark.first - 1 : it.mark.last]) for it in frames]
        for at, (frame, call) in enumerate(zip(frames, calls)):
            if at + 1 < len(calls) and not frame.mark.first <= call.line <= frame.mark.last:
                yield f"{call.name} is at line {call.line}, told {frame.mark.first} to {frame.mark.last}"
            known = folded.slots[frame.mark.unit, frame.mark.routine]
            for slot, value in enumerate(call.slots):
                if slot not in known or not folded.is_hidden(frame, slot, known[slot][1]):
                    yield from self.value(unit, known.get(slot), frame.values.get(slot), value, texts[at : at + 1])
        known = folded.globals[folded.units[number]]
        if script.is_cleared:
            self.found.later.append("globals after a reset")
            return
        for slot, (_, value) in enumerate(state.globals):
            yield from self.value(unit, known.get(slot), script.globals.get(slot), value, texts)

    def value(self, unit, known, word, value, texts):
        """What differs of a variable, whose kind and name are known where it is visible."""
        kind, name = known or (None, None)
        is_told = unit.tier < 2 or unit.tier == 2 and kind == "integer"
        if word is None:
            if known is None or not is_told or value in (0, "", []):
                return
            word = {"integer": "0", "list": "[]"}.get(kind, '""')
        if is_same(word, value):
            return
        whole = "\n".join(self.source(unit.file))
        if name and (any(is_assigned(name, it) for it in texts) or is_hidden_by(name, whole)):
            self.found.later.append(f"{name} is {plain(value)}, told {word}")
        else:
            yield f"{name or 'a variable'} is {plain(value)}, told {word}"

    def source(self, file):
        if file not in self.texts:
            self.texts[file] = (bytes_of(file) or b"").decode(errors="surrogateescape").split("\n")
        return self.texts[file]


def compare(binary, path, most=60, seed=1):
    return Comparison(binary, path, most, seed).run()
