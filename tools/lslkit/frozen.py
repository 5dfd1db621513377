"""A frozen world (docs/FORMATS.md), decoded for a reader: what each script holds, waits for and listens to.

The image doesn't say how many operands wait in a saved call. They are found by trying, so that all that follows fits;
the slots of each call are those that `view` prints."""
import hashlib
import struct
from collections import namedtuple

from . import syntax, tokens
from .quoting import quoted

EVENTS = {
    1: ("state_entry", 0),
    2: ("state_exit", 0),
    3: ("touch_start", 1),
    4: ("touch", 1),
    5: ("touch_end", 1),
    6: ("listen", 4),
    7: ("timer", 0),
    8: ("link_message", 4),
    9: ("changed", 1),
    10: ("on_rez", 1),
    11: ("dataserver", 2),
    12: ("linkset_data", 3),
}
FAULTS = {1: "Math Error", 2: "Stack-Heap Collision", 3: "Too Many Listens"}
RESTS = ("idle", "running", "dead")
OWN_CHARGE, CALL_CHARGE, MOST_TEXT = 1024, 32, 1 << 20

State = namedtuple("State", "clock objects")
Object = namedtuple("Object", "region prims scripts store")
# A script: its state and the one to which it goes; its globals as names and values; its queue, listens, timer as the
# period and when it is due, when it wakes, its limit, what it rests in, the event in hand, its calls, its fault, and
# what it is charged.
Script = namedtuple("Script", "state leaving globals queue listens timer wakes limit rest event calls fault charge")
Event = namedtuple("Event", "name args toucher")
Listen = namedtuple("Listen", "number is_active channel name id message")
Call = namedtuple("Call", "name line slots operands")


class Misfit(Exception):
    """Bytes that aren't read so."""


class Key(str):
    """A key's text, unlike a string's."""


def charge(value):
    """What a value is charged (docs/LANGUAGE.md)."""
    if isinstance(value, int):
        return 8
    if isinstance(value, list):
        return 16 + sum(8 + charge(it) for it in value)
    return 16 + len(value.encode(errors="surrogateescape"))


def word(value):
    """A value as `view` writes it."""
    if isinstance(value, list):
        return f"[{', '.join(map(word, value))}]"
    return str(value) if isinstance(value, int) else quoted(value)


class Source:
    """What a script's text says of its image: its digest, its globals and its states."""

    def __init__(self, text):
        script = syntax.read(tokens.cut(text))
        self.digest = hashlib.sha256(text).digest()
        self.globals = [it.text for it in script.globals]
        self.states = [it.text for it in script.states]


class Reader:
    """Reads fields from a place of the image on."""

    def __init__(self, data, at=0):
        self.data, self.at = data, at

    def take(self, form):
        size = struct.calcsize(f">{form}")
        if self.at + size > len(self.data):
            raise Misfit
        (found,) = struct.unpack_from(f">{form}", self.data, self.at)
        self.at += size
        return found

    def text(self):
        size = self.take("I")
        if size > MOST_TEXT or self.at + size > len(self.data):
            raise Misfit
        self.at += size
        return self.data[self.at - size : self.at].decode(errors="surrogateescape")

    def value(self):
        tag = self.take("B")
        if tag == 1:
            return self.take("i")
        if tag in (3, 4):
            return self.text() if tag == 3 else Key(self.text())
        if tag != 7:
            raise Misfit
        return [self.value() for _ in range(self.take("I"))]

    def event(self):
        name, count = EVENTS[self.take("B")]
        args = [self.value() for _ in range(count)]
        return Event(name, args, (self.text(), self.text(), self.take("i")) if self.take("B") else None)

    def listen(self):
        return Listen(self.take("i"), bool(self.take("B")), self.take("i"), self.text(), self.text(), self.text())


class Decoder:
    """`sources` has each script's Source, and `views` its calls as names, lines and slots in words."""

    def __init__(self, image, sources, views):
        self.image, self.sources, self.views = image[:-32], sources, views

    def world(self):
        reader = Reader(self.image, 14)
        clock, count = reader.take("Q"), reader.take("B")
        return State(clock, self.objects(reader, count, 0))

    def objects(self, reader, count, before):
        """The objects from here on, whose first script has this place among all."""
        if not count:
            if reader.at != len(self.image):
                raise Misfit
            return []
        region = reader.text()
        reader.at += 16
        prims = [reader.text() for _ in range(reader.take("B"))]
        number = reader.take("H")

        def rest(at, found):
            behind = Reader(self.image, at)
            store = [(behind.text(), behind.text()) for _ in range(behind.take("H"))]
            return [Object(region, prims, found, store), *self.objects(behind, count - 1, before + number)]

        return self.scripts(reader.at, before, before + number, [], rest)

    def scripts(self, at, place, last, found, rest):
        if place == last:
            return rest(at, found)
        source, reader = self.sources[place], Reader(self.image, at + 32)
        if self.image[at : at + 32] != source.digest:
            raise Misfit
        fields = self.fields(reader, source)
        state, fault = RESTS[reader.take("B")], None
        if state == "dead":
            fault = FAULTS[reader.take("B")]

        def done(at, calls, event=None):
            held = OWN_CHARGE + sum(charge(it) for _, it in fields["globals"]) + sum(map(charge_of_call, calls))
            script = Script(**fields, rest=state, event=event, calls=calls, fault=fault, charge=held)
            return self.scripts(at, place + 1, last, [*found, script], rest)

        if state != "running":
            return done(reader.at, [])
        event = reader.event()
        if reader.take("H") != len(self.views[place]):
            raise Misfit
        return self.calls(reader.at, self.views[place], [], lambda at, calls: done(at, calls, event))

    def fields(self, reader, source):
        """What a script's image has before its rest, by the names of its parts."""
        state = source.states[reader.take("H")]
        leaving = source.states[reader.take("H")] if reader.take("B") else None
        globals_ = [(name, reader.value()) for name in source.globals]
        queue = [reader.event() for _ in range(reader.take("B"))]
        reader.take("i")
        listens = [reader.listen() for _ in range(reader.take("B"))]
        found = {"state": state, "leaving": leaving, "globals": globals_, "queue": queue, "listens": listens}
        found.update(timer=(reader.take("I"), reader.take("Q")), wakes=reader.take("Q"), limit=reader.take("I"))
        return found

    def calls(self, at, left, found, rest):
        """The calls, the innermost first, with as few waiting operands as let the rest fit."""
        if not left:
            return rest(at, found)
        (name, line, slots), *others = left
        reader = Reader(self.image, at + 4)
        values = [reader.value() for _ in slots]
        if list(map(word, values)) != slots:
            raise Misfit
        operands = []
        while True:
            try:
                return self.calls(reader.at, others, [*found, Call(name, line, values, operands)], rest)
            except Misfit:
                operands = [*operands, reader.value()]


def charge_of_call(call):
    return CALL_CHARGE + sum(map(charge, [*call.slots, *call.operands]))
