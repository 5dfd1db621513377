"""A journal's lines and a world's steps in plain words, with names in place of numbers and keys. The phrases are data
(tools/words), which page/telling.js fills the same way."""
from . import journal, words, worlds
from .quoting import quoted

MOST_SHOWN = 240
# What is shown for a region whose name is empty.
NO_NAME = words.table("journal")["no name"]


def said(phrase, **fields):
    """A phrase of a journal's line."""
    return words.filled(words.table("journal")[phrase], fields)


def step_said(phrase, **fields):
    """A phrase of a step."""
    return words.filled(words.table("steps")["says"][phrase], fields)


def cut(text):
    """A text that is shown in a line of its own, or its front."""
    return text if len(text) <= MOST_SHOWN else text[:MOST_SHOWN] + ".."


def segments(count):
    return step_said("segment" if count == "1" else "segments", count=count)


def seconds(milliseconds):
    return f"{milliseconds // 1000}.{milliseconds % 1000:03d}"


def ways(world):
    """For the line of each crossing the region that the object is to leave there, and for each object where it is to be
    at the end: a crossing whose link fails leaves it where it was."""
    found, homes = {}, {number: it.region for number, it in enumerate(world.objects, 1)}
    for step in world.steps:
        if step.word == "cross":
            number = int(step.fields[0])
            found[step.line] = homes.get(number)
            homes[number] = step.fields[1]
    return found, homes


def pauses(gaps):
    """What a `pause` step asks for."""
    if gaps == ["0"]:
        return step_said("pause end")
    if len(gaps) == 1:
        return step_said("pause", segments=segments(gaps[0]))
    return step_said("pause gaps", gaps=", ".join(gaps))


class Names:
    """The names of a world's scripts and objects, and of those whose keys come up in it."""

    def __init__(self, world=None):
        self.world = world or worlds.World([], [], [], [], [], None)
        names = [it.name for it in self.world.scripts]
        is_alone = [it and names.count(it) == 1 for it in names]
        self.scripts = [it if is_alone[at] else f"{it} ({at + 1})" for at, it in enumerate(names)]
        self.keys = {it.key: it.name for object_ in self.world.objects for it in object_.prims if it.name}
        for step in self.world.steps:
            if step.word == "say":
                self.keys.setdefault(step.fields[2].lower(), step.fields[1])
            elif step.word == "touch":
                self.keys.setdefault(step.fields[2].lower(), step.fields[3])
        self.ways, self.homes = ways(self.world)

    def script(self, number):
        return self.scripts[number - 1] if 0 < number <= len(self.scripts) else said("script", number=number)

    def object_name(self, number):
        objects = self.world.objects
        known = 0 < number <= len(objects)
        return objects[number - 1].prims[0].name if known else said("object", number=number)

    def prim_name(self, number, link):
        objects = self.world.objects
        prims = objects[number - 1].prims if 0 < number <= len(objects) else []
        return prims[max(link, 1) - 1].name if link <= len(prims) else said("prim", number=link)

    def value(self, text, is_quoted):
        """A value as it is shown: known keys by their names."""
        if not is_quoted:
            return text
        if worlds.KEY.fullmatch(text) and text.lower() in self.keys:
            return f"<{self.keys[text.lower()]}>"
        return quoted(cut(worlds.KEY.sub(self.named_key, text)))

    def named_key(self, found):
        name = self.keys.get(found[0].lower())
        return found[0] if name is None else f"<{name}>"

    def event(self, entry):
        event, args = journal.event_of(entry)
        return f"{event}({', '.join(self.value(*it) for it in journal.fields(args))})"

    def entry(self, entry, state=None):
        """A line of the journal, without its script's name. `state` is the one of a `clear`, where it is known."""
        tell = getattr(self, f"tell_{entry.word}", None)
        if tell is None:
            return f"{entry.word} {cut(entry.rest)}"
        return tell(entry, state) if entry.word == "clear" else tell(entry)

    def tell_took(self, entry):
        return said("took", event=self.event(entry))

    def tell_drop(self, entry):
        return said("drop", event=self.event(entry))

    @staticmethod
    def tell_clear(entry, state=None):
        text = said("clear in", state=state) if state else said("clear")
        return text if entry.rest == "0" else said("clear gone", said=text, count=entry.rest)

    def tell_chat(self, entry):
        (voice, _), (channel, _), (text, _) = journal.fields(entry.rest)
        name = f"chat {voice}" if f"chat {voice}" in words.table("journal") else "chat"
        return said(name, voice=voice, channel=channel, text=self.value(text, True))

    def tell_owner(self, entry):
        return said("owner", text=self.value(journal.fields(entry.rest)[0][0], True))

    @staticmethod
    def tell_done(entry):
        return said("done", charge=f"{int(entry.rest):,}")

    @staticmethod
    def tell_fault(entry):
        return said("fault", reason=journal.fields(entry.rest)[0][0])

    def tell_home(self, entry):
        region, wanted = journal.fields(entry.rest)[0][0], self.homes.get(entry.number)
        fields = {"object": self.object_name(entry.number), "region": region or NO_NAME, "wanted": wanted or NO_NAME}
        return said("home" if wanted in (region, None) else "home missed", **fields)

    def crossing(self, number, region, left):
        """A crossing to a region, from the one that it leaves."""
        name = "cross stays" if left == region else "cross" if left is None else "cross from"
        return step_said(name, object=self.object_name(number), region=region or NO_NAME, left=left or NO_NAME)

    def step(self, step):
        """A step of the world file."""
        fields = step.fields
        if step.word == "say":
            name = fields[1] or said("someone")
            return step_said("say", name=name, channel=fields[0], text=quoted(cut(fields[3])))
        if step.word == "touch":
            return self.touch(int(fields[0]), int(fields[1]), fields[3] or said("someone"))
        if step.word == "clock":
            return step_said("clock", seconds=seconds(int(fields[0])))
        if step.word == "cross":
            return self.crossing(int(fields[0]), fields[1], self.ways.get(step.line))
        if step.word == "pause":
            return pauses(fields)
        if step.word in ("changed", "rez"):
            return step_said(step.word, object=self.object_name(int(fields[0])), number=fields[1])
        if step.word == "go":
            return step_said("go", script=self.script(int(fields[0])), segments=segments(fields[1]))
        return step_said("run", segments=segments(fields[0])) if step.word == "run" else " ".join([step.word, *fields])

    def touch(self, number, link, name):
        fields = {"name": name, "object": self.object_name(number), "link": link}
        if link < 2:
            return step_said("touch", **fields)
        return step_said("touch prim", prim=self.prim_name(number, link), **fields)


def clocks(world):
    """The clock after each step, in milliseconds."""
    clock, found = 0, []
    for step in world.steps:
        if step.word == "clock":
            clock = max(clock, int(step.fields[0]))
        found.append(clock)
    return found
