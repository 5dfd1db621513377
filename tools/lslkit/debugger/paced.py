"""Before which statement a script stopped for good, by copies of the scripts that pass a tick before each statement.

A tick passes in `jump p7;@p7;`, which takes no memory: a copy stops where its script does, and its state a tick before
has the line, the calls and the values. But ticks share out the turns of scripts. So the world of the copies must have
said the same, and hold the same at the beginning and at the end of the step; else nothing is taken from it."""
import contextlib
import os
import tempfile

from .. import program, syntax, tokens, worlds
from ..places import bytes_of, write_text
from ..probe import LOOPS, STATEMENTS
from .core import Core, Refused
from .segments import LAST, last_segment, script_at

# What can't stop a script before something in it begins.
UNTOLD = ("block", "label", "empty")


class Pacer:
    """Writes the copy of a script. `lines` has for each line of the copy the script's."""

    def __init__(self, text):
        self.text, self.tokens, self.places = text, tokens.cut(text), tokens.Lines(text)
        # What is put into the text, in its order at each place: the place, the piece, and the line of a tick or none.
        self.name, self.lines, self.pieces = self.free_name(), [1], []

    def free_name(self):
        name = "p"
        while any(it.text.startswith(name) for it in self.tokens):
            name += "_"
        return name

    def copy(self):
        script = syntax.read(self.tokens)
        for it in [*script.functions, *(handler for state in script.states for handler in state.parts)]:
            self.statement(it.parts[-1])
        made, last = b"", 0
        for place, piece, line in sorted(self.pieces, key=lambda it: it[0]):
            made += self.kept(last, place) + piece.encode()
            self.lines += [line, self.lines[-1]] if line else []
            last = place
        return made + self.kept(last, len(self.text))

    def kept(self, first, last):
        text, line = self.text[first:last], self.lines[-1]
        self.lines += range(line + 1, line + 1 + text.count(b"\n"))
        return text

    def put(self, place, piece, line=None):
        self.pieces.append((place, piece, line))

    def tick(self, place, at):
        """A tick at a place, for the token with this number."""
        name = f"{self.name}{len(self.pieces)}"
        self.put(place, f"\njump {name};@{name};\n", self.places.line_of(self.tokens[at].place))

    def before(self, node):
        if node.form not in UNTOLD:
            self.tick(self.tokens[node.first].place, node.first)

    def statement(self, node):
        """Ticks in a statement."""
        for part in node.parts:
            if part.form in STATEMENTS and node.form == "block":
                self.before(part)
                self.statement(part)
            elif part.form in STATEMENTS:
                self.body(node, part)

    def body(self, node, part):
        """Ticks in the body of an `if` or a loop, which gets braces where it has none. That of a loop ends with one."""
        is_block, end = part.form == "block", self.tokens[part.last - 1].end
        if not is_block:
            self.put(self.tokens[part.first].place, "{")
            self.before(part)
        self.statement(part)
        if node.form in LOOPS:
            self.tick(end - is_block, part.last if node.form == "do" else node.first)
        if not is_block:
            self.put(end, "}")


def longer(world, text):
    """A world file's text in which scripts run for as long as may be."""
    lines = text.split("\n")
    for it in world.steps:
        if it.word in ("run", "go"):
            lines[it.line - 1] = " ".join([it.word, *it.fields[:-1], f"{LAST}"])
    return "\n".join(lines)


def paced_world(path, room):
    """Writes the world of copies to a folder. Its path, and for each script the lines of its copy."""
    text = program.world_of(path)
    world, copies = worlds.read(text), {}
    for it in world.scripts:
        if it.file not in copies:
            pacer = Pacer(bytes_of(it.file) or b"")
            copies[it.file] = os.path.join(room, f"{len(copies)}.lsl"), pacer.lines
            with open(copies[it.file][0], "wb") as file:
                file.write(pacer.copy())

    def renamed(it):
        return copies[it.file][0] if isinstance(it, worlds.Script) else it.file

    made = os.path.join(room, "paced.world")
    write_text(made, longer(world, worlds.with_files(text, renamed)))
    return made, [copies[it.file][1] for it in world.scripts]


def stop(core, number, step):
    """The state of a script before the statement in which it stops in a step; none where copies can't tell it."""
    try:
        with tempfile.TemporaryDirectory(prefix="lsl-paced-") as room:
            path, lines = paced_world(core.world, room)
            with contextlib.closing(Core(core.binary, path)) as paced:
                if any(core.shown((step, it)) != paced.shown((step, it)) for it in (0, LAST)):
                    return None
                script = script_at(paced, number, step, last_segment(paced, number, step, 0))
    except (Refused, syntax.Unexpected, RecursionError):
        return None
    return script._replace(calls=[it._replace(line=lines[number - 1][it.line - 1]) for it in script.calls])
