"""The terminal's commands that show what is there at the moment."""
from .. import stating, telling
from .breakpoints import Wrong, file_of
from .commands import command
from .moving import list_breakpoints

AROUND, LINES, LAST_LINES = 5, 11, 10
# How many of the innermost and of the outermost calls are shown.
MOST_CALLS, LAST_CALLS = 20, 4
NOTHING = "none"


@command("print", "p", "[NAME]", "shows a variable of the selected call or of the script, or all of them. "
         "`*` marks one that has another value than at the last stop")  # fmt: skip
def print_(face, rest):
    session = face.session
    moment = session.seen()
    if rest:
        found = session.variable(rest, face.frame)
        if found is None:
            raise Wrong(f"no variable `{rest}` is visible here")
        face.say(face.variable(found))
        return
    shown = [*session.locals_of(moment, face.frame), *session.globals_of(moment)] if moment else []
    said = [f"  {face.variable(it, telling.MOST_SHOWN)}" for it in shown]
    face.say(*(said or ["there are no variables here"]))


@command("where", "bt backtrace", "", "shows the active calls of the script, the innermost first")
def where(face, _):
    moment = face.session.seen()
    calls = moment.calls if moment else []
    for at, it in enumerate(calls):
        if MOST_CALLS <= at < len(calls) - LAST_CALLS:
            if at == MOST_CALLS:
                face.say(f"  ... {len(calls) - MOST_CALLS - LAST_CALLS:,} more calls")
            continue
        known = face.variables(face.session.locals_of(moment, at))
        mark = "->" if at == face.frame and at else "  "
        said = f"{mark}#{at} {face.routine(it.name)} at {face.place(moment.file, it.line)}"
        face.say(said + (f", with {known}" if known else ""))
    if not calls:
        face.say(f"{face.session.names.script(face.session.script)} is in no handler")


def select(face, frame):
    moment = face.session.seen()
    count = len(moment.calls) if moment else 0
    if not 0 <= frame < count:
        raise Wrong("this is the outermost call" if frame > 0 else "this is the innermost call")
    face.frame, face.listed = frame, None
    it = moment.calls[frame]
    known = face.variables(face.session.locals_of(moment, frame))
    said = f"#{frame} {face.routine(it.name)} at {face.place(moment.file, it.line)}"
    face.say(said + (f", with {known}" if known else ""), face.source_line(moment.file, it.line, True))


@command("up", "", "", "selects the call around this one, whose variables are then shown")
def up(face, _):
    select(face, face.frame + 1)


@command("down", "dow", "", "selects the call within this one")
def down(face, _):
    select(face, face.frame - 1)


@command("frame", "f", "[NUMBER]", "shows the moment again, or selects a call by its number")
def frame(face, rest):
    if rest and not rest.isdigit():
        raise Wrong(f"`{rest}` is no call's number")
    if rest:
        select(face, int(rest))
    else:
        face.show()


@command("list", "l", "[[FILE:]LINE | FUNCTION]", "shows the lines around the current one, and then those after them")
def list_(face, rest):
    session = face.session
    moment = session.seen()
    file = session.file()
    line = moment.calls[face.frame].line if moment and face.frame < len(moment.calls) else moment.line if moment else 1
    if rest:
        file, line = listed(session, rest, file)
    elif face.listed:
        file, line = face.listed
    if file is None:
        raise Wrong("which file? write FILE:LINE")
    first = max(1, line - AROUND)
    last = min(len(face.source(file)), first + LINES - 1)
    if first > last:
        raise Wrong(f"{file} has {len(face.source(file))} lines")
    current = {it.line for it in moment.calls[face.frame : face.frame + 1]} if moment and file == moment.file else set()
    face.say(*(face.source_line(file, it, it in current) for it in range(first, last + 1)))
    face.listed = file, last + 1 + AROUND


def listed(session, rest, file):
    """The file and the line that words name."""
    name, _, number = rest.rpartition(":")
    if number.isdigit():
        return file_of(session.trace, name) if name else file, int(number)
    found = [it for it in session.trace.marks.values() if rest in (it.routine, it.routine.rpartition(".")[2])]
    if not found:
        raise Wrong(f"no function and no event is called `{rest}`")
    return session.trace.units[found[0].unit].file, found[0].first


@command("journal", "j", "[COUNT]", "shows the last lines of the journal so far")
def journal(face, rest):
    if rest and not rest.isdigit():
        raise Wrong(f"`{rest}` is no count")
    said = face.session.trace.journal[: face.session.trace.said_by(face.session.moment.number)]
    for it in said[-int(rest or LAST_LINES) :]:
        face.say(f"  {it.step}.{it.segment}  {it.line}")
    if not said:
        face.say("nothing was said so far")


@command("script", "thread", "[NUMBER | NAME]",
         "says which scripts there are, or selects the one that `where`, `print` and the moves are about")  # fmt: skip
def script(face, rest):
    names = face.session.names.scripts
    if rest:
        numbers = [it for it, name in enumerate(names, 1) if rest in (str(it), name)]
        if not numbers:
            raise Wrong(f"no script is called `{rest}`: there are {', '.join(names)}")
        face.session.script, face.frame, face.listed = numbers[0], 0, None
        where(face, "")
        return
    info_scripts(face)


# What the world's state says


def scripts(face):
    """Each script's number, its name, and what it holds."""
    every = [it for whole in face.session.state().objects for it in whole.scripts]
    return [(at, face.session.names.script(at), it) for at, it in enumerate(every, 1)]


def info_scripts(face):
    clock = face.session.state().clock
    for number, name, it in scripts(face):
        mark = "*" if number == face.session.script else " "
        face.say(f"{mark} {number} {name}: in the state {it.state}, {stating.rest_of(it, clock)}")


def info_queue(face):
    teller = stating.Teller(face.session.world)
    for _, name, it in scripts(face):
        taken = [f"takes {teller.event(it.event)}"] if it.event else []
        waiting = [f"{len(it.queue)} of 64 wait: {'; '.join(teller.events(it.queue))}"] if it.queue else []
        face.say(f"{name}: {'; '.join([*taken, *waiting]) or NOTHING}")


def info_listens(face):
    teller = stating.Teller(face.session.world)
    for _, name, it in scripts(face):
        face.say(f"{name}: {'; '.join(map(teller.listen, it.listens)) or NOTHING}")


def info_timer(face):
    face.say(f"the clock is at {telling.seconds(face.session.state().clock)}")
    for _, name, it in scripts(face):
        said = f"each {it.timer[0]} s, due at {telling.seconds(it.timer[1])}" if it.timer[0] else NOTHING
        asleep = f"; asleep until {telling.seconds(it.wakes)}" if it.wakes > face.session.state().clock else ""
        face.say(f"{name}: {said}{asleep}")


def info_store(face):
    teller = stating.Teller(face.session.world)
    for number, it in enumerate(face.session.state().objects, 1):
        face.say(f"{face.session.names.object_name(number)}: {', '.join(teller.store(it)) or NOTHING}")


def info_memory(face):
    for _, name, it in scripts(face):
        face.say(f"{name}: {it.charge:,} of {stating.bytes_in_words(it.limit)}")
        if it.rest != "dead":
            face.say(*(f"  {size:,} by {what}" for what, size, _ in stating.spent(it)))


def info_globals(face):
    moment = face.session.seen()
    shown = face.session.globals_of(moment) if moment else []
    face.say(*(f"  {face.variable(it)}" for it in shown), *([] if shown else ["there are no globals"]))


INFO = {
    "scripts": info_scripts,
    "queue": info_queue,
    "listens": info_listens,
    "timer": info_timer,
    "store": info_store,
    "memory": info_memory,
    "globals": info_globals,
    "breakpoints": list_breakpoints,
}
EXACT = ("scripts", "queue", "listens", "timer", "store", "memory")


@command("info", "i", " | ".join(INFO),
         "shows this of the whole world. All but the last two are as before the current segment")  # fmt: skip
def info(face, rest):
    found = [it for it in INFO if rest and it.startswith(rest)]
    if len(found) != 1:
        raise Wrong(f"info takes one of {', '.join(INFO)}")
    moment = face.session.moment
    if found[0] in EXACT and not face.session.is_at_end:
        face.say(face.paint("name", f"before segment {moment.segment} of step {moment.step}:"))
    INFO[found[0]](face)
