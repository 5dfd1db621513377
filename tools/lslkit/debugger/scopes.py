"""The active calls of scripts and what they hold, by the numbers that an editor gets for them during one stop."""
from collections import namedtuple

from .. import stating, telling
from .face import Face
from .protocol import Refused

MOST_CALLS, MOST_SCOPES, MOST_LINES = 10000, 10, 200
LOCALS, GLOBALS, WORLD, JOURNAL = 1, 2, 3, 4
SCOPES = (
    (LOCALS, {"name": "Locals", "presentationHint": "locals", "expensive": False}),
    (GLOBALS, {"name": "Globals", "expensive": False}),
    (WORLD, {"name": "World, before this segment", "expensive": True}),
    (JOURNAL, {"name": "Journal so far", "expensive": True}),
)
Row = namedtuple("Row", "name value kind")


class Scopes:
    def __init__(self, session):
        self.session = session

    def calls(self, script):
        moment = self.session.seen(script)
        return moment, moment.calls if moment else []

    def frames(self, script):
        """The number, name, file and line of each call; of a script in no handler one without a file."""
        moment, calls = self.calls(script)
        first = script * MOST_CALLS
        found = [(first + at, Face.routine(it.name), moment.file, it.line) for at, it in enumerate(calls)]
        return found or [(first, "in no handler", None, 0)]

    def found(self, number):
        """The script and the place of a call's number."""
        script, at = divmod(number, MOST_CALLS)
        count = max(1, len(self.calls(script)[1])) if 1 <= script <= len(self.session.world.scripts) else 0
        if at >= count:
            raise Refused(f"there is no call {number}")
        return script, at

    def of(self, frame):
        self.found(frame)
        return [{**it, "variablesReference": frame * MOST_SCOPES + sort} for sort, it in SCOPES]

    def variables(self, reference):
        frame, sort = divmod(reference, MOST_SCOPES)
        script, at = self.found(frame)
        if sort not in dict(SCOPES):
            raise Refused(f"there are no variables {reference}")
        rows = {LOCALS: self.locals, GLOBALS: self.globals, WORLD: self.world, JOURNAL: self.journal}[sort](script, at)
        return [
            {"name": it.name, "value": it.value, "variablesReference": 0, **({"type": it.kind} if it.kind else {})}
            for it in rows
        ]

    def locals(self, script, at):
        moment, _ = self.calls(script)
        found = self.session.locals_of(moment, at) if moment else []
        return [Row(it.name, it.value, it.kind) for it in found]

    def globals(self, script, _=0):
        moment, _ = self.calls(script)
        return [Row(it.name, it.value, it.kind) for it in self.session.globals_of(moment)] if moment else []

    def world(self, *_):
        """The clock, each object's region and store, and what each script is in."""
        session = self.session
        state, teller, number = session.state(), stating.Teller(session.world), 0
        rows = [Row("clock", f"{telling.seconds(state.clock)} s", "")]
        for place, whole in enumerate(state.objects, 1):
            store = "".join(f"; {it}" for it in teller.store(whole))
            rows.append(Row(session.names.object_name(place), f"in {whole.region or telling.NO_NAME}{store}", ""))
            for it in whole.scripts:
                number += 1
                name = session.names.script(number)
                rows.append(Row(name, f"in the state {it.state}, {stating.rest_of(it, state.clock)}", ""))
                for line in teller.lines(it):
                    what, _, value = line.partition(": ")
                    rows += [Row(f"{name}: {what}", value, "")] if what != "globals" else []
        return rows

    def journal(self, *_):
        said = self.session.trace.journal[: self.session.trace.said_by(self.session.moment.number)]
        first = max(0, len(said) - MOST_LINES)
        return [Row(str(at), it.line, "") for at, it in enumerate(said[first:], first + 1)]

    def variable(self, name, frame):
        """A variable that is visible in a call, or in the script that did something last; none where there is none."""
        script, at = self.found(frame) if frame is not None else (self.session.moment.script or self.session.script, 0)
        rows = [*self.globals(script), *self.locals(script, at)]
        return next((it for it in reversed(rows) if it.name == name), None)
