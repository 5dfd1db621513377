"""Plays scripts without a world file, or continues one: steps are given as words, or line by line (`talking`)."""
import os
import sys

from . import program, showing, talking, worlds
from .faults import explained
from .stage import Bad, Stage, milliseconds, number

USAGE = """\
usage: lsl play FILE... [STEP...] [--world] [--journal] [--html PAGE] [--freeze FROZEN]

Plays scripts in an object, without a world file, and shows their journal readably; or continues where a world file
ends. The steps are done in order, and after each step the scripts run while they can:

  --touch NAME       a person of this name touches the object; 'play' makes up the person's key
  --say TEXT         a person says the text on channel 0
  --after TIME       the clock advances, from one due timer to the next: 10s, 2m, 1h, 500ms
  --changed FLAGS    the object changed: a number, or names such as CHANGED_OWNER; --rez N: it was rezzed
  --cross REGION     the object crosses to another region
  --message WORDS    the object's scripts get link_message: a number and a text, '100 on'
  --run TICKS        how many segments run after each later step (10000 by default)

Details follow the step that they describe. Before the first step, they are for all steps:

  --on NAME          the object or prim of this name (the first object by default)
  --link N           the touched prim's link number; the object gets that number of prims
  --channel N        the channel on which the text is said
  --by NAME          who speaks or touches (by default the last person named, or Someone)

The objects, in this order; a script is in the last named prim:

  --object NAME      another object, or the name of the first; --region NAME: where it is
  --prim NAME        another prim of the object
  --note FILE        a notecard of the prim, named as the file; or --note NAME=FILE
  --owner NAME       the owner of the objects

  --world            prints the world file of these steps, and plays nothing
  --journal          prints the journal as the program writes it
  --html PAGE        writes the journal as a page with a timeline
  --freeze FROZEN    writes what 'lsl freeze' prints after these steps
  --interactive      reads steps line by line, as it does if no step and no output is given; 'help' lists them

  lsl play door.lsl --touch Ann --say open --channel 5 --after 10s
  lsl play door.lsl --prim Lamp lamp.lsl --object Log log.lsl --touch Ann --on Lamp
  lsl play examples/door/door.world"""
STEPS = ("touch", "say", "after", "changed", "rez", "cross", "message")
# What describes a step, and which.
OF_OBJECTS = ("touch", "changed", "rez", "cross", "message")
DETAILS = {"link": ("touch",), "channel": ("say",), "by": ("say", "touch"), "on": OF_OBJECTS}
PARTS = ("object", "prim", "note", "region")
# The steps and lines that are in every play.
HIDDEN = ("run", "home")
FLAGS = ("world", "journal", "interactive")
NUMBERS = ("link", "channel", "run", "changed", "rez")
# The words that take another one.
TAKING = (*STEPS, *DETAILS, *PARTS, "run", "owner", "html", "freeze")


class Play:
    """The words of a play."""

    def __init__(self, words):
        self.is_asked = words[:1] in (["--help"], ["-h"], ["help"])
        self.given, self.flags, self.html, self.freeze, self.owner = [], set(), None, None, "Owner"
        # What there is: the sort of each part and its name.
        self.parts = []
        if not self.is_asked:
            self.read(iter(words))
        self.stage = None

    def read(self, words):
        for word in words:
            name = word[2:]
            if not word.startswith("-"):
                self.parts.append(("file", word))
            elif word[:2] == "--" and name in FLAGS:
                self.flags.add(name)
            elif word[:2] == "--" and name in TAKING:
                value = next(words, None)
                if value is None or value in [f"--{it}" for it in (*TAKING, *FLAGS)]:
                    raise Bad(f"{word} takes a word" + (f", and not {value}" if value else ""))
                self.give(name, value)
            else:
                raise Bad(f"'{word}' isn't an option of play")
        if not self.scripts:
            raise Bad("play takes a script, or a world file")
        if "interactive" in self.flags and self.outputs:
            raise Bad(f"--interactive writes no {self.outputs[0]}")

    def give(self, name, value):
        if name in ("owner", "html", "freeze"):
            setattr(self, name, value)
            return
        if name in PARTS:
            self.parts.append((name, value))
            return
        if name == "after":
            milliseconds(value)
        value = number(value, name) if name in NUMBERS else value
        described = [it for it in self.given if it[0] in DETAILS.get(name, ())]
        if described:
            described[-1][2][name] = value
        else:
            self.given.append((name, value, {}))

    @property
    def scripts(self):
        return [name for sort, name in self.parts if sort == "file"]

    @property
    def files(self):
        """The files that its words name."""
        return self.scripts + [it.partition("=")[2] or it for sort, it in self.parts if sort == "note"]

    @property
    def outputs(self):
        """The options that say what is written, and where."""
        given = {"world": "world" in self.flags, "journal": "journal" in self.flags}
        given |= {"html": self.html is not None, "freeze": self.freeze is not None}
        return [f"--{name}" for name, is_given in given.items() if is_given]

    @property
    def is_interactive(self):
        return "interactive" in self.flags or not (self.given or self.outputs)

    @property
    def needs_no_program(self):
        return self.is_asked or ("world" in self.flags and not any(it[0] == "after" for it in self.given))

    def answer(self):
        print(USAGE if self.is_asked else self.staged(None).text(), end="\n" if self.is_asked else "")
        return 0

    def set_up(self):
        """The stage with all that there is, and no step."""
        stage = Stage(self.owner)
        for sort, name in self.parts:
            add_part(stage, sort, name)
        if not stage.steps:
            stage.run()
        return stage

    def staged(self, binary):
        """The stage with the steps of the words."""
        self.stage = stage = self.set_up()
        for name, value, details in self.given:
            if name == "run":
                stage.ticks = value
            elif name in DETAILS:
                stage.details[name] = value
            elif name == "after":
                talking.wait(binary, stage, value)
            else:
                stage.act(name, value, details)
        return stage

    def play(self, binary):
        """Plays, and answers the program's status."""
        stage = self.staged(binary)
        if "world" in self.flags:
            print(stage.text(), end="")
            return 0
        if self.is_interactive:
            return talking.Talk(binary, stage).run()
        ran = talking.replayed(binary, stage.text())
        if ran.status:
            return refused(binary, ran)
        text = ran.output.decode(errors="surrogateescape")
        if self.freeze:
            talking.write_frozen(binary, stage.text(), self.freeze)
        if "journal" in self.flags:
            print(text, end="")
            return 0
        status = showing.show(binary, text, stage.text(), self.html, not self.html, hidden=HIDDEN)
        talking.tell_causes(binary, stage.text())
        return status


def add_part(stage, sort, name):
    """A script, an object, a prim or a notecard; or all that a world file has."""
    if sort == "file" and worlds.is_world(program.world_of(name)):
        stage.load(program.world_of(name), lambda it: found_file(name, it))
    elif sort == "file":
        stage.add_script(name)
    elif sort == "object":
        stage.add_object(name)
    elif sort == "prim":
        stage.add_prim(name)
    elif sort == "note":
        title, _, file = name.rpartition("=")
        stage.add_note(file, title)
    else:
        stage.bodies[-1].region = name


def found_file(world, it):
    """A file that a world file names: from here, or else from the world file's folder or one around it."""
    folder = None if os.path.exists(it.file) else program.folder_of(world, it)
    return it.file if folder is None else os.path.join(folder, it.file)


def refused(binary, ran):
    """Says why scripts aren't played."""
    lines = program.lines_of(ran.output)
    said = explained(lines[0], check=program.checker(binary)) if lines else None
    print(said or ran.notes.decode(errors="replace"), file=sys.stderr, end="\n" if said else "")
    return ran.status
