"""The words of `lsl debug`: what is debugged, and by which face."""
import contextlib
import os
import sys
import tempfile

from .. import faults, making, playing, program, stage, worlds
from ..places import bytes_of, write_text
from .core import Refused
from .session import Empty, Session
from .terminal import Terminal, is_coloured

USAGE = """\
usage: lsl debug WORLD [-x FILE] [--post]
       lsl debug SCRIPT... [WORDS] [-x FILE] [--post]
       lsl debug --adapter

Shows a run statement by statement, forward and back: of a world file, or of scripts with the steps of 'lsl play' (see
'lsl play --help'). 'help' lists the commands.

  -x FILE            does the commands of a file, and ends; it does the same if standard input isn't a terminal
  --post             starts at the last fault, or else at the end
  --adapter          answers an editor, by the Debug Adapter Protocol

  lsl debug examples/courier/courier.world
  lsl debug door.lsl --touch Ann --say open --channel 5 --after 10s"""
UNREAD, UNUSED = 4, ("world", "journal", "interactive")
# Names the core where it is another one than that of this tree.
PROGRAM = "LSL_DEBUG_PROGRAM"


class Options:
    """The words of a call."""

    def __init__(self, words):
        self.commands, self.is_post, self.is_adapter, rest = None, False, False, []
        given = iter(words)
        for word in given:
            if word in ("-x", "--command"):
                self.commands = next(given, None)
                if self.commands is None:
                    raise stage.Bad(f"{word} takes a file of commands")
            elif word in ("--post", "--adapter"):
                setattr(self, f"is_{word[2:]}", True)
            else:
                rest.append(word)
        self.is_asked = rest[:1] in (["--help"], ["-h"], ["help"])
        if self.is_adapter and (rest or self.commands or self.is_post):
            raise stage.Bad("--adapter takes no other word: the editor says what is to be debugged")
        self.play = None if self.is_asked or self.is_adapter else played(rest)


def played(words):
    """The play of these words."""
    if not words:
        raise stage.Bad("debug takes a script, or a world file")
    play = playing.Play(words)
    unused = [it for it in UNUSED if it in play.flags] + [it for it in ("html", "freeze") if getattr(play, it)]
    if unused:
        raise stage.Bad(f"--{unused[0]} isn't an option of debug")
    return play


def core_program():
    """The path of the core's program."""
    return os.environ.get(PROGRAM) or making.debugger()


@contextlib.contextmanager
def world_of(play):
    """The world file of a play: the named one where there is nothing more, or a file that is written for it."""
    if not play.given and len(play.parts) == 1 and worlds.is_world(program.world_of(play.files[0])):
        yield play.files[0]
        return
    needs_program = any(it[0] == "after" for it in play.given)
    text = play.staged(making.any_program() if needs_program else None).text()
    with tempfile.TemporaryDirectory(prefix="lsl-debug-") as room:
        path = os.path.join(room, "played.world")
        write_text(path, text)
        yield path


def unread(play):
    """Why a file of the words can't be read, as a line; nothing where all can."""
    for name in play.files:
        said = program.unread(name)
        if said:
            return f'"{name}" {said}'
    return None


def refused(error, path):
    """The lines that say why a world can't be debugged."""
    first = error.output.split("\n")[0]
    said = faults.explained(first, check=None)
    if said:
        return [said]
    missing = program.shortened(program.unread_files(path, True)) if error.status == UNREAD else []
    return [f"lsl: {it}" for it in missing] or [f"lsl: {error}"]


def main(words):
    try:
        options = Options(words)
    except stage.Bad as error:
        print(f"lsl: {error}", file=sys.stderr)
        print(USAGE, file=sys.stderr)
        return 1
    if options.is_asked:
        print(USAGE)
        return 0
    if options.is_adapter:
        from . import adapter

        return adapter.main()
    return debug(options)


def debug(options):
    """Debugs in the terminal. The status."""
    missing = unread(options.play)
    commands = None
    if options.commands is not None and not missing:
        commands = bytes_of(options.commands)
        missing = f'"{options.commands}" {program.unread(options.commands)}' if commands is None else None
    if missing:
        print(f"lsl: {missing} (status {UNREAD})", file=sys.stderr)
        return UNREAD
    try:
        with world_of(options.play) as path:
            return face(options, path, commands)
    except stage.Bad as error:
        print(f"lsl: {error}", file=sys.stderr)
        return 1


def face(options, path, commands):
    """Runs the terminal on a world file. The status."""
    try:
        session = Session(core_program(), path)
    except Refused as error:
        print("\n".join(refused(error, path)), file=sys.stderr)
        return error.status
    except Empty as error:
        print(f"lsl: {error}", file=sys.stderr)
        return 1
    with contextlib.closing(session):
        terminal = Terminal(session, is_coloured())
        terminal.begin(options.is_post)
        if commands is not None:
            return terminal.script(commands.decode(errors="replace").split("\n"))
        if not sys.stdin.isatty():
            return terminal.script(sys.stdin)
        return terminal.talk()
