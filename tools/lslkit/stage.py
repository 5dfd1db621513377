"""The world that is played: objects with prims, scripts and notecards, people with keys that are made up for their
names, and steps. It is written as a world file."""
import os
import re

from . import tables, worlds
from .places import in_top
from .quoting import quoted
from .words import table

UNITS = {"ms": 1, "s": 1000, "": 1000, "m": 60000, "h": 3600000}
PERSON, PRIM = "00000000-0000-4000-8000-%012x", "00000000-0000-4000-9000-%012x"
NO_KEY = "00000000-0000-0000-0000-000000000000"
MOST_CLOCK = 2147483647999
# The script that sends what a play's `message` says.
SENDER, SENDERS_PRIM = in_top("tools", "lslkit", "sender.lsl"), "Sender"


class Bad(Exception):
    """Words that are no step."""


def milliseconds(text):
    found = re.fullmatch(r"([0-9]+(?:\.[0-9]+)?)\s*(ms|s|m|h|)", text)
    if not found:
        raise Bad(f"'{text}' is no time: write 10s, 2m, 1h or 500ms")
    return int(float(found[1]) * UNITS[found[2]] + 0.5)


def number(text, name):
    """A number, or names of constants with `|` between them."""
    if isinstance(text, int):
        return text
    words = [it.strip() for it in text.split("|")]
    values = [constant(it) for it in words]
    if None not in values and words != [""]:
        return sum(set(values))
    least, greatest = table("steps")["line ranges"].get(name, worlds.SIGNED)
    if not re.fullmatch(r"-?[0-9]{1,10}", text) or not least <= int(text) <= greatest:
        raise Bad(f"'{text}' is no number for {name}: {least} to {greatest}")
    return int(text)


def constant(name):
    """The value of a constant of this language, or of one of LSL whose value is known here."""
    row = tables.constants().get(name)
    if row and row.kind == "integer":
        return int(row.value)
    pasted = table("substitutes")["names"].get(name, {}).get("function", [])
    found = re.fullmatch(r"integer \w+ = (-?\d+);", pasted[0]) if len(pasted) == 1 else None
    return int(found[1]) if found else None


class Prim:
    def __init__(self, name, key):
        self.name, self.key, self.lines = name, key, []


class Body:
    """An object: its prims, the first of which is its root."""

    def __init__(self, name, key, owner, region):
        self.owner, self.region, self.prims = owner, region, [Prim(name, key)]

    def lines(self):
        root = self.prims[0]
        yield f"object {root.key} {quoted(root.name)} {self.owner} {quoted(self.region)}"
        for prim in self.prims:
            if prim is not root:
                yield f"prim {prim.key} {quoted(prim.name)}"
            yield from prim.lines


class Stage:
    """The world as it is so far. Steps of objects go to `target`, an object's number and a link number."""

    def __init__(self, owner="Owner"):
        self.bodies, self.steps, self.ticks, self.clock = [], [], 10000, 0
        self.people, self.prims_made, self.scripts = {}, 0, []
        self.owner, self.details = owner, {"link": None, "channel": 0, "by": None, "on": None}

    # What there is

    def key_of(self, name):
        """The key that is made up for a person, or that a world file has for one."""
        self.people.setdefault(name, PERSON % (len(self.people) + 1))
        return self.people[name]

    def new_key(self):
        self.prims_made += 1
        return PRIM % self.prims_made

    def add_object(self, name, region="Here"):
        self.bodies.append(Body(name, self.new_key(), self.key_of(self.owner), region))

    def add_prim(self, name):
        self.bodies[-1].prims.append(Prim(name, self.new_key()))

    def add_script(self, file):
        name = os.path.splitext(os.path.basename(file))[0]
        if not self.bodies:
            self.add_object(name)
        self.bodies[-1].prims[-1].lines.append(f"script {quoted(name)} {quoted(file)}")
        self.scripts.append(file)

    def add_note(self, file, name=None):
        if not self.bodies:
            raise Bad("a notecard is in an object: name a script first")
        name = name or os.path.splitext(os.path.basename(file))[0]
        self.bodies[-1].prims[-1].lines.append(f"note {quoted(name)} {quoted(file)}")

    def load(self, text, renamed):
        """Takes the objects and the steps of a world file. `renamed` gives the file of a script or a notecard."""
        world, lines = worlds.read(text), {}
        for sort, named in (("script", world.scripts), ("note", world.notes)):
            for it in named:
                said = f"{sort} {quoted(it.name)} {quoted(renamed(it))}"
                lines.setdefault((it.prim.object, it.prim.link), []).append((it.line, said))
                self.scripts += [renamed(it)] if sort == "script" else []
        for number_, it in enumerate(world.objects, 1):
            self.bodies.append(Body(it.name, it.key, it.owner, it.region))
            self.people.setdefault("Owner", it.owner)
            self.bodies[-1].prims = [Prim(prim.name, prim.key) for prim in it.prims]
            for prim, one in zip(self.bodies[-1].prims, it.prims):
                prim.lines = [said for _, said in sorted(lines.get((number_, one.link), []))]
        for it in world.steps:
            self.take_step(it, text.split("\n")[it.line - 1].strip())

    def take_step(self, it, line):
        if it.word in ("say", "touch"):
            name, key = (it.fields[1], it.fields[2]) if it.word == "say" else (it.fields[3], it.fields[2])
            self.people.setdefault(name, key)
        elif it.word == "clock":
            self.clock = max(self.clock, int(it.fields[0]))
        self.steps.append(line)

    def find(self, name):
        """The number of an object and the link number of a prim of this name."""
        for number_, body in enumerate(self.bodies, 1):
            for link, prim in enumerate(body.prims, 1):
                if prim.name.lower() == name.lower():
                    return number_, link
        names = ", ".join(dict.fromkeys(prim.name for body in self.bodies for prim in body.prims))
        raise Bad(f"no object and no prim is called '{name}': there are {names}")

    def target(self, details):
        """The object and the prim that a step is for."""
        number_, link = self.find(details["on"]) if details["on"] else (1, 1)
        if details["link"] is not None:
            link = details["link"]
        prims = self.bodies[number_ - 1].prims
        while len(prims) < link:
            prims.append(Prim(f"Link {len(prims) + 1}", self.new_key()))
        return number_, link

    # Steps

    def run(self):
        self.steps.append(f"run {self.ticks}")

    def act(self, word, value, details):
        """A step, and the run after it. `details` are those that come with it."""
        details = {**self.details, **{name: it for name, it in details.items() if it is not None}}
        if word == "touch":
            name = value or details["by"] or "Someone"
            self.details["by"] = name
            number_, link = self.target(details)
            self.steps.append(f"touch {number_} {link} {self.key_of(name)} {quoted(name)}")
        elif word == "say":
            name = details["by"] or "Someone"
            self.steps.append(f"say {details['channel']} {quoted(name)} {self.key_of(name)} {quoted(value)}")
        elif word == "cross":
            self.steps.append(f"cross {self.target(details)[0]} {quoted(value)}")
        elif word == "message":
            self.send(value, details)
        else:
            self.steps.append(f"{word} {self.target(details)[0]} {number(value, word)}")
        self.run()

    def send(self, value, details):
        """A message to all prims of an object, which a script of a prim of its own sends."""
        said = re.fullmatch(r"(.*?)\s+from\s+(\S.*)", value)
        what, who = said.groups() if said else (value, None)
        word, _, text = what.partition(" ")
        num, text = number(word, "message"), unquoted_word(text.strip())
        number_ = self.target(details)[0]
        prims = self.bodies[number_ - 1].prims
        if not any(it.name == SENDERS_PRIM for it in prims):
            prims.append(Prim(SENDERS_PRIM, self.new_key()))
            prims[-1].lines.append(f'script "sender" {quoted(SENDER)}')
        link = next(at for at, it in enumerate(prims, 1) if it.name == SENDERS_PRIM)
        key = self.key_of(who) if who else NO_KEY
        payload = f"{num}|{text}|{key}"
        if len(payload.encode()) > 255:
            raise Bad("a message's text has at most 200 bytes here")
        self.steps.append(f"touch {number_} {link} {self.key_of('a message')} {quoted(payload)}")

    def go_to(self, clock):
        self.clock = min(max(clock, self.clock), MOST_CLOCK)
        self.steps.append(f"clock {self.clock}")
        self.run()

    def text(self):
        lines = [line for body in self.bodies for line in body.lines()]
        return "\n".join([*lines, "", "begin", *self.steps, "end", ""])


def unquoted_word(text):
    """A word without the quotes around it."""
    return text[1:-1] if len(text) > 1 and text[0] == text[-1] and text[0] in "\"'" else text
