"""The script `lsl`: reads its words, has the program made where need be, runs it, and says how it ended."""
import os
import re
import select
import signal
import subprocess
import sys
import tempfile

from . import about, faults, kit, making, playing, program, showing, stage, standing, streams, talking, worlds
from .debugger import starting
from .places import in_top, write_text

USAGE = """\
usage: lsl once FILE                runs a script, and prints its journal
       lsl replay WORLD             plays a world file, and prints its journal
                                    both: with --show readably, with --html PAGE as a page with a timeline
       lsl replay --lossy WORLD     the same, but objects cross by numbered notes
       lsl freeze WORLD             plays a world file, and then prints the world as one line
       lsl thaw FROZEN WORLD        continues a world that 'freeze' printed, with the steps of a world file
       lsl view FROZEN WORLD        shows where each script of a world is that 'freeze' printed
       lsl make NUMBER              plays a world generated from a number, and prints its journal's lines and digest
       lsl check FILE               says that a script is accepted, or prints its first fault
                                    with --explain it explains all faults, as on a terminal
       lsl play FILE...             plays scripts without a world file, or continues one: 'lsl play --help'
       lsl debug WORLD              shows a run statement by statement, forward and back: 'lsl debug --help'
       lsl server                   answers an editor, by the Language Server Protocol
{of_checkout}       lsl --version                which program runs: its version and commit, whether it is proved, its kit
       lsl --help

Write ./-x for a file with a name that begins with '-'.{built}
'tools/explain FILE' explains all faults of a script, as 'lsl check FILE' does on a terminal, and with --warn also what
is probably a mistake."""
# What a package has no use for: it builds nothing.
OF_CHECKOUT = """\
       lsl --prove [WORDS]          proves the program first, in about an hour
       lsl --try WORDS              uses the program without its proofs, even if there is a proved one
"""
BUILT = """ The first call compiles the program without its proofs, in a
minute or two. That program checks itself as it runs, and stops if a check fails. After 'lsl --prove' the proved program
runs, until one of its sources changes."""
COMMANDS = ("once", "replay", "freeze", "thaw", "view", "check", "make")
OF_WORLDS = ("replay", "freeze", "thaw", "view")
OF_FROZEN = ("thaw", "view")
SHOWN = ("once", "replay")
TAKEN = {"thaw": "two files", "view": "two files", "make": "one number"}
READ_FAULT = 4
# What a script and a world file have.
SCRIPT, OBJECT = re.compile(r"(?m)^\s*default\b|\{"), re.compile(r"(?m)^[ \t]*object[ \t]")
NOT_MADE = 125


class Bad(Exception):
    """Words that are no command."""


def is_number(word):
    """Whether a world is made of the number that the word is."""
    return len(word) < 8 and word.isascii() and word.isdigit() and word[0] != "0" and int(word) <= 1000000


class Options:
    """A command of the program: its word, its file or number, the frozen file, and how its journal is shown."""

    def __init__(self, words):
        self.command, self.show, self.html, self.is_lossy, names = words[0], False, None, False, []
        self.is_explained = bool(os.environ.get("LSL_EXPLAIN"))
        if self.command not in COMMANDS:
            raise Bad(f"'{self.command}' isn't a command")
        rest = iter(words[1:])
        for word in rest:
            if word == "--show" and self.command in SHOWN:
                self.show = True
            elif word == "--html" and self.command in SHOWN:
                self.html = next(rest, None)
                if self.html is None:
                    raise Bad("'--html' takes the name of the page that is to be written")
            elif word == "--lossy" and self.command == "replay" and not self.is_lossy:
                self.is_lossy = True
            elif word == "--explain":
                self.is_explained = True
            elif word.startswith("-"):
                raise Bad(f"'{word}' isn't an option of '{self.command}'")
            else:
                names.append(word)
        takes_frozen = self.command in OF_FROZEN
        self.frozen = names.pop(0) if takes_frozen and len(names) == 2 else None
        is_short = takes_frozen and self.frozen is None
        if len(names) != 1 or is_short:
            raise Bad(f"'{self.command}' takes {TAKEN.get(self.command, 'one file')}")
        if self.command == "make" and not is_number(names[0]):
            raise Bad("'make' takes a number from 1 to 1000000, without leading zeros")
        self.name = names[0]

    @property
    def words(self):
        """The words of the program's command, before its files."""
        return [self.command, "--lossy"] if self.is_lossy else [self.command]

    @property
    def is_world(self):
        return self.command in OF_WORLDS

    @property
    def files(self):
        """The files that its words name, without those that the world names."""
        return [it for it in (self.frozen, self.name) if it is not None and self.command != "make"]

    @property
    def scripts(self):
        """The files of the scripts of the world."""
        return [it.file for it in worlds.read(self.world()).scripts] if self.is_world else []

    def world(self):
        """The text of the world that is played."""
        return program.world_of(self.name) if self.is_world else standing.world_of_once(self.name)


def main(words):
    if words[:1] not in (["--try"], ["--prove"]) and "--try" in words[1:]:
        words = ["--try", *(it for it in words if it != "--try")]
    how = words[0] if words[:1] in (["--try"], ["--prove"]) else None
    if how and about.is_package():
        print(f"lsl: this is a package, with one program: '{how}' needs a checkout of the sources", file=sys.stderr)
        return NOT_MADE
    try:
        return prove() if words == ["--prove"] else answer(words[1:] if how else words, how)
    except kit.NotMade as error:
        print(error.lines("lsl"), file=sys.stderr)
        return NOT_MADE


def usage():
    """The commands that there are: a package can't build a program."""
    is_package = about.is_package()
    return USAGE.format(of_checkout="" if is_package else OF_CHECKOUT, built="" if is_package else BUILT)


def answer(words, how):
    if words[:1] in (["--help"], ["-h"], ["help"]):
        print(usage())
        return 0
    if words == ["--version"]:
        return tell_version(how)
    if words[:1] == ["server"]:
        os.execv(sys.executable, [sys.executable, in_top("tools", "lsl-server"), *words[1:]])
    if words[:1] == ["debug"]:
        if how == "--prove":
            making.proved(about.DEBUGGER)
        return starting.main(words[1:])
    try:
        command = playing.Play(words[1:]) if words[:1] == ["play"] else Options(words) if words else None
    except (Bad, stage.Bad) as error:
        asked = "lsl play --help" if words[0] == "play" else "lsl --help"
        print(f"lsl: {error}; '{asked}' lists what there is", file=sys.stderr)
        return 1
    if command is None:
        print(usage(), file=sys.stderr)
        return 1
    if words[0] == "play" and command.needs_no_program:
        return command.answer()
    return with_program(command, how)


def prove():
    """Proves the program and the debugger, which are those that run from then on."""
    for it in about.CALLED:
        making.proved(it)
    print("lsl: the program and the debugger are proved", file=sys.stderr)
    return 0


def tell_version(how):
    """Says which program would run; none is made for that but where it is to be proved."""
    if how == "--prove":
        making.proved()
    said = making.told(how == "--try")
    print(f"lsl {said['version']}")
    for key in about.KEYS[1:]:
        print(f"{key}: {said[key]}")
    return 0


def with_program(command, how):
    for name in command.files:
        # The last one is read first: where it can't be, nothing need be proved to know how that ends.
        said = program.unread(name)
        is_play = isinstance(command, playing.Play)
        if said and (is_play or name == command.files[-1] or not program.is_plain(name)):
            print(f'lsl: "{name}" {said} (status 4)', file=sys.stderr)
            return READ_FAULT
    binary = making.proved() if how == "--prove" else making.program(how == "--try")
    if isinstance(command, playing.Play):
        try:
            return command.play(binary)
        except stage.Bad as error:
            print(f"lsl: {error}", file=sys.stderr)
            return 1
    return show(binary, command) if command.show or command.html else carry(binary, command)


def carry(binary, command):
    """Runs a command with its journal passed on as it comes, and says at its end what its status leaves unsaid."""
    follower, first = standing.Follower(), b""
    with tempfile.TemporaryDirectory(prefix="lsl-") as room, tempfile.TemporaryFile() as notes:
        handed = handed_name(command, room)
        words = [*command.words, *([command.frozen] if command.frozen is not None else []), handed]
        # As in this process, a file that may not grow ends the program by no signal, but with status 5.
        how = {"stdout": subprocess.PIPE, "stderr": notes, "restore_signals": False}
        with subprocess.Popen([binary, *words], **how) as running:
            is_taken = True
            try:
                for piece in iter(lambda: os.read(running.stdout.fileno(), 65536), b""):
                    first = (first + piece)[:4096]
                    follower.feed(piece)
                    is_taken = hand_on(as_given(piece, handed, command.name))
                    if not is_taken:
                        break
            except BaseException:
                running.kill()
                raise
            running.stdout.close()
        notes.seek(0)
        status, said = program.status_of(running.returncode), as_given(notes.read(), handed, command.name)
    if not is_taken:
        return streams.said("lsl", "standard output took no more, and is cut short", streams.CUT_SHORT)
    tell(command, binary, status, first, said)
    if status == 0 and follower.running and command.command in SHOWN:
        tell_standing(binary, command, follower)
    return status


def as_given(written, handed, name):
    """What was written, with the file's name as it was given."""
    return written if handed == name else written.replace(os.fsencode(handed), os.fsencode(name))


def hand_on(piece):
    """Writes to standard output, and waits where that has no room yet. Whether it was taken."""
    while piece:
        try:
            piece = piece[os.write(1, piece) :]
        except BlockingIOError:
            select.select([], [1], [])
        except OSError:
            return False
    return True


def handed_name(command, room):
    """The file that the program is to read; if it names one that isn't a regular file, a world without that one."""
    if not command.is_world or program.are_plain(command.name, True):
        return command.name
    path = os.path.join(room, "world")

    def renamed(it):
        return it.file if program.is_plain(it.file) else f"{path}/none"

    write_text(path, worlds.with_files(program.world_of(command.name), renamed))
    return path


def tell(command, binary, status, first, notes):
    """Says on standard error how the run ended; on a terminal, or where it is asked for, a refusal in words."""
    line = first.decode(errors="surrogateescape").split("\n")[0]
    is_asked = command.is_explained or sys.stderr.isatty()
    is_refused = is_asked and status in (2, 3, 6, 8)
    said = faults.explained(line, command.scripts, program.checker(binary)) if is_refused else None
    if said:
        print(said, file=sys.stderr)
        return
    sys.stderr.buffer.write(notes)
    sys.stderr.flush()
    if status == READ_FAULT:
        program.tell_unread(command.name, command.is_world, command.frozen)
    if status in (2, 3):
        tell_other_sort(command)
    if status == program.SIGNALLED + signal.SIGILL:
        print("lsl: a check failed in the program, which isn't proved; 'rt try' says where", file=sys.stderr)
    elif status > program.SIGNALLED:
        print(f"lsl: the program was ended by signal {status - program.SIGNALLED}", file=sys.stderr)


def tell_other_sort(command):
    """Says what to write, where a script was given in the place of a world file, or the other way round."""
    text = program.world_of(command.name)
    if command.is_world and not worlds.is_world(text) and SCRIPT.search(text):
        other = f"is a script and no world file: write 'lsl once {command.name}' or 'lsl play {command.name}'"
    elif not command.is_world and worlds.is_world(text) and OBJECT.search(text):
        other = f"is a world file and no script: write 'lsl replay {command.name}' or 'lsl play {command.name}'"
    else:
        return
    print(f'lsl: "{command.name}" {other}', file=sys.stderr)


def tell_standing(binary, command, follower):
    """Says which scripts are still in a handler, and in which line."""
    for number, name, event, line in standing.told(binary, command.world(), follower):
        place = f", line {line}" if line else ""
        print(f'lsl: script {number} "{name}" is still in {event}{place}', file=sys.stderr)


def show(binary, command):
    """Runs a command, and shows its journal readably or as a page."""
    ran = program.run(binary, [*command.words, command.name])
    if ran.status:
        if not hand_on(ran.output):
            return streams.said("lsl", "standard output took no more, and is cut short", streams.CUT_SHORT)
        tell(command, binary, ran.status, ran.output, ran.notes)
        return ran.status
    text = ran.output.decode(errors="surrogateescape")
    status = showing.show(binary, text, command.world(), command.html, command.show)
    talking.tell_causes(binary, command.world())
    return status
