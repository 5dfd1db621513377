"""The debugger in a terminal, or by a script of commands."""
import contextlib
import os
import sys

from . import looking, moving  # noqa: F401  (for their commands)
from .breakpoints import Wrong
from .commands import command, find
from .core import Refused
from .face import TIERS, Face
from .session import OF_SCRIPTS

PROMPT = "(lsl) "
HISTORY, MOST_HISTORY = "debug_history", 1000


class Terminal(Face):
    """A face that takes commands."""

    def begin(self, is_post):
        """Says what there is, and shows the first moment: the first statement, or with `is_post` the last fault."""
        trace, session = self.session.trace, self.session
        count = f"{trace.count:,} moments, {len(trace.journal):,} lines of journal"
        self.say(f"{count}; 'help' lists the commands")
        for it in trace.units.values():
            if it.tier:
                self.say(f"{it.file}: {TIERS[it.tier]}")
        faults = trace.faults()
        if is_post:
            session.go(session.at(faults[-1]) if faults else session.end())
        self.say(*self.steps_to(session.moment.step))
        self.show()

    # Moves

    def pass_to(self, moment):
        """Goes on to a moment that isn't shown, but for what is said on the way."""
        self.say(*self.way(self.session.moment.number, moment.number))
        self.session.moment = moment

    def move(self, how):
        """Goes by a move; where a script does nothing more, to the end."""
        session = self.session
        moment, is_back = session.move(how), how == "back" or how.startswith("reverse")
        if moment is None and how in OF_SCRIPTS and not is_back and not session.is_at_end:
            moment = session.end()
        self.go(moment)

    def stop_at(self, moment, stop):
        stop.hits += 1
        if stop.is_temporary:
            self.session.breakpoints.pop(stop.number, None)
        word, *rest = stop.condition.words
        self.go(moment, f"breakpoint {stop.number}: {stop.said}", rest[0] if word == "changes" else None)

    # Lines

    def do(self, line):
        """Does a command. Whether it was one that could be done."""
        word, _, rest = line.strip().partition(" ")
        try:
            find(word).act(self, rest.strip())
        except Wrong as error:
            self.say(f"{error}")
        except Refused as error:
            self.say(f"{error}")
        else:
            return True
        return False

    def script(self, lines):
        """Does the commands of a file, each of which is shown, up to one that can't be done. The status."""
        for line in lines:
            line = line.strip()
            if not line or line.startswith("#"):
                continue
            self.say(f"{PROMPT}{line}")
            if not self.do(line):
                return 1
            if self.is_over:
                break
        return 0

    def talk(self):
        """Takes commands from a terminal. The status."""
        with history():
            last = ""
            while not self.is_over:
                try:
                    line = input(PROMPT).strip() or last
                except EOFError:
                    print()
                    break
                except KeyboardInterrupt:
                    print()
                    continue
                if line:
                    last = line
                    self.interruptible(line)
        return 0

    def interruptible(self, line):
        """Does a command that Ctrl-C ends."""
        try:
            self.do(line)
        except KeyboardInterrupt:
            self.say("", "-- interrupted")


@command("quit", "q exit", "", "ends the debugger")
def quit_(face, _):
    face.is_over = True


def completed(text, state):
    """A command's name that begins with a text, for the key that completes."""
    from .commands import COMMANDS

    found = [it for it in COMMANDS if it.startswith(text)]
    return found[state] if state < len(found) else None


@contextlib.contextmanager
def history():
    """Keeps the lines that were typed, in the folder for such files, where Python can edit lines."""
    try:
        import readline
    except ImportError:
        yield
        return
    folder = os.environ.get("XDG_STATE_HOME") or os.path.join(os.path.expanduser("~"), ".local", "state")
    path = os.path.join(folder, "lsl", HISTORY)
    with contextlib.suppress(OSError):
        readline.read_history_file(path)
    readline.set_completer(completed)
    readline.parse_and_bind("tab: complete")
    try:
        yield
    finally:
        readline.set_history_length(MOST_HISTORY)
        with contextlib.suppress(OSError):
            os.makedirs(os.path.dirname(path), exist_ok=True)
            readline.write_history_file(path)


def is_coloured():
    return sys.stdout.isatty() and not os.environ.get("NO_COLOR")
