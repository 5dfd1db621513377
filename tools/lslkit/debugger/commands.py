"""The terminal's commands: their names, short forms and help, and which one a line means."""
from collections import namedtuple

from .breakpoints import Wrong

COMMANDS = {}
# A command: its name, its short forms, how it is written, what it does, and the function that does it, which takes the
# face and the rest of the line.
Command = namedtuple("Command", "name short form help act")


def command(name, short="", form="", help_=""):
    """Adds a function to the commands."""

    def add(function):
        COMMANDS[name] = Command(name, short.split(), f"{name} {form}".strip(), help_, function)
        return function

    return add


def find(word):
    """The command that a word means: by its name, a short form or the front of one name."""
    found = [it for it in COMMANDS.values() if word == it.name or word in it.short]
    found = found or [it for it in COMMANDS.values() if it.name.startswith(word)]
    if len(found) > 1:
        raise Wrong(f"`{word}` may be {' or '.join(it.name for it in found)}")
    if not found:
        raise Wrong(f"there is no command `{word}`: `help` lists them")
    return found[0]


def count_of(rest):
    """How often a command is to be done."""
    if not rest:
        return 1
    if not rest.isdigit() or not 0 < int(rest) <= 1000000:
        raise Wrong(f"`{rest}` is no count")
    return int(rest)


def overview():
    """A line for each command."""
    width = max(len(it.form) for it in COMMANDS.values() if len(it.form) < 44)
    for it in COMMANDS.values():
        yield f"{it.form:<{width}}  {it.help.split('.')[0]}"


@command("help", "h ?", "[COMMAND]", "lists the commands, or says what one does")
def help_of(face, rest):
    if not rest:
        face.say(*overview(), "", "An empty line does the last command again. The front of a name is enough.")
        return
    it = find(rest)
    face.say(it.form, *([f"short: {', '.join(it.short)}"] if it.short else []), it.help)
