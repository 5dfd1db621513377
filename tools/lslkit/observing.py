"""A second run of a world that tells more than its journal: each line's step, and where scripts are.

The second world has one more object, whose script is touched between the steps, and copies of the scripts with
probes (`probe`). Numbers of objects and scripts stay as they are, since the new ones are the last. Its journal without
what was added must be the world's own: otherwise nothing is taken from it."""
import os
import tempfile

from . import journal, probe, program, worlds
from .places import bytes_of, write_text
from .quoting import quoted

MARKER = "default { touch_start(integer n) { } }\n"
MAX_STEPS = 100000
MAX_BYTES = 1000000


class Observation:
    """Of a journal each line's step, as its place in the world's list, what each probe told before which line, and for
    each `clear` the state in which its script is then."""

    def __init__(self, steps, probes, states):
        self.steps, self.probes, self.states = steps, probes, states

    def state_now(self):
        """The state in which a world's one script is at the end."""
        told = [(place, probe.name) for place, _, probe in self.probes if probe.sort == "state"]
        # A `clear` comes after the handlers of the state that was left.
        changes = [(place + 1, state) for place, state in self.states.items()]
        return max([(0, "default"), *told, *changes], key=lambda it: it[0])[1]


def states_of(entries, probes):
    """For each `clear` the state in which its script is then: the one that it was told to go to, or `default`."""
    found, going, leaving, at = {}, {}, set(), 0
    for place, entry in enumerate(entries):
        while at < len(probes) and probes[at][0] <= place:
            _, script, told = probes[at]
            at += 1
            if told.sort == "reset":
                going.pop(script, None)
            elif told.sort == "to" and script not in leaving:
                going[script] = told.name
        if entry.word == "took":
            is_leaving = entry.rest == "state_exit"
            (leaving.add if is_leaving else leaving.discard)(entry.number)
            going.pop(None if is_leaving else entry.number, None)
        elif entry.word == "clear":
            found[place] = going.pop(entry.number, "default")
    return found


class Second:
    """The second world of a world file's text, and how its journal is read."""

    def __init__(self, text, room, with_probes, with_marks=True, is_full=False):
        self.world, self.room, self.is_full = worlds.read(text), room, is_full
        self.scripts, notes = ([self.text_of(it) for it in sort] for sort in (self.world.scripts, self.world.notes))
        self.mark, self.probes = probe.mark_of([*self.scripts, *notes]), []
        files = self.probed_files() if with_probes else {}
        self.stride = self.stride_of(text) if with_marks else None

        def renamed(it):
            return files.get(it.file, it.file) if isinstance(it, worlds.Script) else it.file

        self.text = self.marked(worlds.with_files(text, renamed))

    @staticmethod
    def text_of(named):
        return bytes_of(named.file) or b"" if program.is_plain(named.file) else b""

    def probed_files(self):
        files = {}
        for script, text in zip(self.world.scripts, self.scripts):
            if script.file not in files:
                files[script.file] = os.path.join(self.room, f"{len(files)}.lsl")
                with open(files[script.file], "wb") as file:
                    file.write(probe.probed(text, self.mark, self.probes, self.is_full))
        return files

    def stride_of(self, text):
        """Each how many steps the marker is touched, so that the file keeps its limits; none where it can't be."""
        count = len(self.world.steps)
        room = min((MAX_STEPS - count) // 2, (MAX_BYTES - len(text.encode(errors="surrogateescape"))) // 90)
        if len(self.world.objects) >= 64 or len(self.world.scripts) >= 256 or room < 1:
            return None
        return max(1, -(-count // room))

    def marked(self, text):
        if self.stride is None:
            return text
        lines, key = text.split("\n"), self.free_key()
        path = os.path.join(self.room, "marker.lsl")
        write_text(path, MARKER)
        touch = f'touch {len(self.world.objects) + 1} 1 {key} ""\ngo {len(self.world.scripts) + 1} 1'
        for step in self.world.steps[:: self.stride]:
            lines[step.line - 1] = f"{touch}\n{lines[step.line - 1]}"
        added = f'object {key} "" {key} ""\nscript "" {quoted(path)}\n'
        lines[self.world.begin - 1] = added + lines[self.world.begin - 1]
        return "\n".join(lines)

    def free_key(self):
        taken = {it.key for object_ in self.world.objects for it in object_.prims}
        keys = (f"ffffffff-0000-0000-0000-{it:012x}" for it in range(len(taken) + 1))
        return next(it for it in keys if it not in taken)

    def run(self, binary):
        path = os.path.join(self.room, "second.world")
        write_text(path, self.text)
        return program.run(binary, ["replay", path])

    def observe(self, entries):
        """The journal without what was added, and what was observed."""
        kept, steps, told, count = [], [], [], -1
        for entry in entries:
            if entry.word == "home":
                if entry.number <= len(self.world.objects):
                    kept.append(entry)
                    steps.append(len(self.world.steps))
            elif entry.number > len(self.world.scripts):
                count += entry.word == "took"
            elif entry.word == "owner" and entry.rest.startswith(f'"{self.mark}'):
                told.append((len(kept), entry.number, self.probes[int(entry.rest[len(self.mark) + 1 : -1])]))
            else:
                kept.append(entry)
                steps.append(count * self.stride if self.stride else None)
        states = states_of(kept, told) if self.probes else {}
        return kept, Observation(steps if self.stride else None, told, states)


def observe(binary, text, entries):
    """What a second run of the world tells of the journal's entries; nothing where no second run does the same."""
    is_plain = all(program.is_plain(it.file) for it in worlds.named(text))
    for with_probes in (True, False) if is_plain else ():
        with tempfile.TemporaryDirectory(prefix="lsl-observe-") as room:
            second = Second(text, room, with_probes)
            ran = second.run(binary)
        if ran.status:
            continue
        kept, observation = second.observe(journal.read(ran.output.decode(errors="surrogateescape")))
        if kept == entries:
            return observation
    return None
