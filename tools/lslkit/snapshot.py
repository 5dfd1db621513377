"""The state of a world after its steps: it is frozen, shown by `view`, and its image read."""
import os
import tempfile

from . import frozen, program, syntax, viewing, worlds
from .places import bytes_of, write_text


def after(binary, text):
    """The state after the steps of a world file's text; none where it can't be had."""
    found = frozen_after(binary, text)
    return found and read(found[0], worlds.read(text), found[1])


def calls_after(binary, text):
    """For each script its active calls after the steps of a world file's text, as `views` has them; none where they
    can't be had."""
    found = frozen_after(binary, text)
    return found and views(found[1], len(worlds.read(text).scripts))


def frozen_after(binary, text):
    """The line that holds the world after the steps of a text, and what `view` prints of it."""
    with tempfile.TemporaryDirectory(prefix="lsl-state-") as room:
        path, image = os.path.join(room, "world"), os.path.join(room, "frozen")
        write_text(path, text)
        ran = program.run(binary, ["freeze", path])
        if ran.status:
            return None
        line = ran.output[ran.output.rstrip(b"\n").rfind(b"\n") + 1 :]
        with open(image, "wb") as file:
            file.write(line)
        shown = program.run(binary, ["view", image, path])
    return None if shown.status else (line, program.lines_of(shown.output))


def of_file(image, world, shown):
    """The same of a file that holds a frozen world, and of what `view` prints of it."""
    data = (bytes_of(image) or b"").rstrip(b"\n")
    return read(data[data.rfind(b"\n") + 1 :], world, shown)


def read(line, world, shown):
    """The state that a line holds, whose world was shown so; none where its bytes can't be made out."""
    try:
        sources = [frozen.Source(bytes_of(it.file) or b"") for it in world.scripts]
        data = bytes.fromhex(line.decode("ascii").split(" ", 1)[1])
        return frozen.Decoder(data, sources, views(shown, len(world.scripts))).world()
    except (frozen.Misfit, syntax.Unexpected, ValueError, IndexError, KeyError, RecursionError):
        return None


def views(shown, count):
    """For each script its calls: names, lines, and slots in words."""
    found = [[] for _ in range(count)]
    number = 0
    for line in shown:
        head, call = viewing.SCRIPT.fullmatch(line), viewing.CALL.fullmatch(line)
        if head:
            number = int(head[1]) - 1
        elif call:
            found[number].append((call[1], int(call[2]), [it[1] for it in viewing.VALUE.finditer(call[3])]))
    return found


def scripts(state):
    """All scripts of a state, in the order of their numbers."""
    return [script for it in state.objects for script in it.scripts]
