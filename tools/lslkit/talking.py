"""A play that is talked to, line by line: the whole world is played at each step, and what is new of its journal is
shown, with the reason where nobody took a step."""
import os
import re
import sys
import tempfile

from . import faulting, hearing, journal, observing, past, program, showing, snapshot, stating, telling, worlds
from .faults import explained
from .places import write_text
from .stage import Bad, milliseconds, number, unquoted_word

HELP = """\
touch [NAME] [LINK]     say [CHANNEL] TEXT      by NAME: who touches and speaks from now on
wait [TIME]             the clock advances from timer to timer: 10s, 2m, 500ms; 'wait' alone: 1s
changed FLAGS           rez N                   run TICKS: how many segments run after each step
cross REGION            message N TEXT          go SCRIPT TICKS         pause GAPS
... on NAME             after a step: the object or prim that it is for
object NAME             prim NAME               script FILE             note FILE: adds one
state                   where scripts are, and their variables, waiting events, listens and timers
why                     why the last step had no effect
world                   prints the world file so far; save FILE and freeze FILE write it
quit"""
WORDS = ("touch", "say", "wait", "state", "why", "world", "help", "quit")
MOST_WAITS, MOST_STEPS, MOST_LINES, LAST_LINES = 1000, 400, 60, 10


def replayed(binary, text):
    with tempfile.TemporaryDirectory(prefix="lsl-play-") as room:
        path = os.path.join(room, "world")
        write_text(path, text)
        return program.run(binary, ["replay", path])


def write_frozen(binary, text, name):
    """Writes what `freeze` prints of a world."""
    with tempfile.TemporaryDirectory(prefix="lsl-play-") as room:
        path = os.path.join(room, "world")
        write_text(path, text)
        output = program.run(binary, ["freeze", path]).output
    with open(name, "wb") as file:
        file.write(output)


def wait(binary, stage, text):
    """Advances the clock by a time, from one moment at which a timer is due or a script wakes to the next."""
    end = stage.clock + milliseconds(text)
    for _ in range(MOST_WAITS):
        state = snapshot.after(binary, stage.text())
        scripts = snapshot.scripts(state) if state else []
        times = [it.timer[1] for it in scripts if it.timer[0]] + [it.wakes for it in scripts if it.rest == "running"]
        due = [it for it in times if stage.clock < it < end]
        if not due:
            break
        stage.go_to(min(due))
    else:
        said = f"{MOST_WAITS:,} timers and sleeps came before {telling.seconds(end)} s: the rest is left out"
        print(f"lsl: {said}", file=sys.stderr)
    stage.go_to(end)


def tell_causes(binary, text):
    """Says on standard error why steps of a play had no effect, and where scripts stopped or still run."""
    for line in cause_lines(past.Past(binary, text)):
        print(f"lsl: {line}", file=sys.stderr)


def cause_lines(history):
    found = hearing.Hearing(history)
    acts = [(step, it) for step, it in enumerate(history.world.steps) if it.word in hearing.ACTS]
    for step, it in acts if len(history.world.steps) <= MOST_STEPS else ():
        said = found.causes(step)
        if said:
            yield f"{found.names.step(it)}: {'; '.join(said)}"
    yield from found.still_running(len(history.world.steps))
    yield from fault_lines(history)


def fault_lines(history, after=0):
    """Where scripts stopped, of the entries from a place on."""
    moment = history.end()
    numbers = [it.number for it in (moment.entries if moment else [])[after:] if it.word == "fault"]
    return [line for number_ in numbers for line in faulting.lines(history, number_)]


def shortened(lines):
    """Lines without those in the middle, where there are very many."""
    if len(lines) <= MOST_LINES:
        return lines
    left = len(lines) - MOST_LINES
    return [*lines[: MOST_LINES - LAST_LINES], f"... {left:,} more lines ...", *lines[-LAST_LINES:]]


class Talk:
    """Reads steps line by line."""

    def __init__(self, binary, stage):
        self.binary, self.stage, self.shown, self.first, self.entries = binary, stage, 0, 0, 0

    def run(self):
        is_terminal = sys.stdin.isatty()
        if is_terminal:
            with_history()
            print(", ".join(WORDS), file=sys.stderr)
        status = self.show()
        while status == 0:
            try:
                line = input("> " if is_terminal else "")
            except EOFError:
                return 0
            word, _, rest = line.strip().partition(" ")
            if word in ("quit", "exit"):
                return 0
            try:
                status = self.do(word, rest.strip())
            except Bad as error:
                print(f"lsl: {error}")
            except OSError as error:
                print(f"lsl: {error.filename or 'it'} can't be used: {error.strerror}")
            sys.stdout.flush()
        return status

    def do(self, word, rest):
        if word == "":
            return 0
        if word in ("help", "state", "world", "save", "by", "why", "freeze"):
            getattr(self, word)(rest)
            return 0
        if word == "run":
            self.stage.ticks = number(rest, "run")
            return 0
        kept = self.stage.steps[:], self.stage.clock
        self.first = len(self.stage.steps)
        if word in ("object", "prim", "script", "note"):
            self.add(word, rest)
            self.shown = self.entries = self.first = 0
        else:
            self.step(word, rest)
        status = self.show()
        if status:
            self.stage.steps, self.stage.clock = kept
        return status if self.first == 0 else 0

    def add(self, word, rest):
        """Something more, with which the play begins anew and does its steps again."""
        name = unquoted_word(rest)
        if not name:
            raise Bad(f"{word} takes a name")
        if word in ("script", "note"):
            said = program.unread(name.rpartition("=")[2])
            if said:
                raise Bad(f'"{name}" {said}')
        if word == "script":
            self.stage.add_script(name)
        elif word == "note":
            title, _, file = name.rpartition("=")
            self.stage.add_note(file, title)
        else:
            (self.stage.add_object if word == "object" else self.stage.add_prim)(name)
        print("(played again from its start)")

    def step(self, word, rest):
        rest, on = self.split_on(rest) if word != "say" else (rest, None)
        details = {"on": on}
        if word == "touch":
            name, link = re.fullmatch(r"(.*?)\s*([0-9]*)", rest).groups()
            self.stage.act("touch", unquoted_word(name), {**details, "link": number(link, "link") if link else None})
        elif word == "say":
            channel, text = re.fullmatch(r"(?:(-?[0-9]+)\s+(?=\S))?(.*)", rest).groups()
            self.stage.act("say", unquoted_word(text), {"channel": number(channel, "channel") if channel else None})
        elif word in ("wait", "after"):
            wait(self.binary, self.stage, rest or "1s")
        elif word in ("changed", "rez"):
            self.stage.act(word, rest or ("0" if word == "rez" else ""), details)
        elif word == "cross":
            to = re.fullmatch(r"(?:(.+?)\s+)?to\s+(.+)", rest)
            if rest in ("", "to"):
                raise Bad("cross takes the name of a region")
            details["on"] = (to[1] and unquoted_word(to[1])) or on if to else on
            self.stage.act("cross", unquoted_word(to[2] if to else rest), details)
        elif word == "message":
            if not rest:
                raise Bad("message takes a number, and a text")
            self.stage.act("message", rest, details)
        elif word in ("go", "pause"):
            self.plain(word, rest)
        else:
            raise Bad(f"'{word}' is no step: 'help' lists them")

    def split_on(self, rest):
        """The words of a step, and the name of the object or the prim after `on`."""
        found = re.fullmatch(r"(.*?)\s*\bon\s+(\S.*)", rest)
        return (found[1], unquoted_word(found[2])) if found else (rest, None)

    def plain(self, word, rest):
        """A step of a world file as it is; `go` takes a script's name too."""
        name, _, ticks = rest.rpartition(" ")
        names = [it.name for it in worlds.read(self.stage.text()).scripts]
        script = str(names.index(unquoted_word(name)) + 1) if unquoted_word(name) in names else name
        line = f"go {script} {ticks}" if word == "go" else f"pause {rest}"
        wrong = worlds.wrong_word(line)
        if wrong:
            raise Bad(f"{wrong[1]}: the form is `{worlds.form_of(word)}`")
        if word == "go" and not 1 <= int(script) <= len(names):
            raise Bad(f"there are {len(names)} scripts: {', '.join(names)}")
        self.stage.steps.append(line)

    def help(self, _):
        print(HELP)

    def world(self, _):
        print(self.stage.text(), end="")

    def save(self, name):
        if not name:
            raise Bad("save takes a file's name")
        write_text(unquoted_word(name), self.stage.text())
        print(f"{name} is written")

    def freeze(self, name):
        if not name:
            raise Bad("freeze takes a file's name")
        write_frozen(self.binary, self.stage.text(), unquoted_word(name))
        print(f"{name} is written: 'save' writes its world file")

    def by(self, name):
        self.stage.details["by"] = unquoted_word(name) or None

    def history(self):
        return past.Past(self.binary, self.stage.text())

    def show(self):
        """Shows what is new, and answers the program's status."""
        text = self.stage.text()
        ran = replayed(self.binary, text)
        if ran.status:
            return self.refused(ran)
        everything = journal.read(ran.output.decode(errors="surrogateescape"))
        observed = observing.observe(self.binary, text, everything)
        painter = showing.Painter(sys.stdout.isatty())
        shown = list(showing.lines(everything, worlds.read(text), painter, observed, ("home", *worlds.FORMS)))
        new = [it for it in shown[self.shown :] if not re.search(r"\bsender\b {3,}", it)]
        said = self.reasons()
        print("\n".join(shortened(new)), end="\n" if new else "")
        for line in said if new or said else ["nothing happens"]:
            print(painter.paint("name", f"({line})"))
        self.shown, self.entries = len(shown), len([it for it in everything if it.word != "home"])
        return 0

    def refused(self, ran):
        lines = program.lines_of(ran.output)
        said = explained(lines[0], check=program.checker(self.binary)) if lines else None
        print(said or ran.notes.decode(errors="replace").strip(), file=sys.stderr)
        return ran.status

    def reasons(self):
        """Why the last steps had no effect, and where a script stopped."""
        history = self.history()
        done = enumerate(history.world.steps)
        steps = [at for at, it in done if at >= self.first and it.word in hearing.ACTS]
        found = hearing.Hearing(history, self.first)
        causes = [it for step in steps[-3:] for it in found.causes(step)]
        running = found.still_running(len(history.world.steps))
        return list(dict.fromkeys([*causes, *running, *fault_lines(history, self.entries), *self.homes(history)]))

    def homes(self, history):
        """Where an object is that the last step sent to another region."""
        last = [it for it in history.world.steps[self.first :] if it.word == "cross"]
        state = history.end().state if history.end() else None
        numbers = [int(it.fields[0]) for it in last] if state else []
        names = telling.Names(history.world)
        return [f"{names.object_name(it)} is in {state.objects[it - 1].region}" for it in numbers]

    def why(self, _):
        history = self.history()
        steps = [at for at, it in enumerate(history.world.steps) if it.word in hearing.ACTS]
        said = hearing.Hearing(history).causes(steps[-1]) if steps else []
        if not said:
            said = [f"it was taken, {history.label(steps[-1])}" if steps else "there is no step yet"]
        print("\n".join(said))

    def state(self, name):
        """Where the scripts are, and all that they hold."""
        history = self.history()
        moment = history.end()
        if not moment or not moment.state:
            raise Bad("the state can't be read")
        lines = list(stating.Teller(history.world).all(moment.state))
        print("\n".join(lines))
        for number_, script in enumerate(snapshot.scripts(moment.state), 1):
            if script.rest == "dead":
                print("\n".join(faulting.lines(history, number_)))


def with_history():
    """Has the terminal keep the lines that were typed, where Python can."""
    try:
        import readline  # noqa: F401
    except ImportError:
        pass
