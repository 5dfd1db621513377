"""The terminal's commands that go to another moment, and those for breakpoints."""
from .breakpoints import Wrong
from .commands import command, count_of

PLACE = "[FILE:]LINE | FUNCTION | event NAME | said TEXT | fault"
MOVES = (
    ("step", "s", "to the next statement of the script, also into a function"),
    ("next", "n", "to the next statement of this call, over functions"),
    ("finish", "fin", "to where this call has ended"),
    ("back", "reverse-step rs", "to the statement before"),
    ("reverse-next", "rn", "to the statement before in this call, over functions"),
    ("reverse-finish", "rfin", "to where this call was begun"),
    ("handler", "", "to the first statement of the next handler, of any script"),
    ("reverse-handler", "rhandler", "to the first statement of this handler, or of the one before"),
    ("segment", "", "to the first statement of the next segment"),
    ("reverse-segment", "rsegment", "to the first statement of the segment before"),
    ("turn", "", "to the first statement of the world file's next step"),
    ("reverse-turn", "rturn", "to the first statement of the step before"),
)


def mover(name):
    def move(face, rest):
        for _ in range(count_of(rest) - 1):
            moment = face.session.move(name)
            if moment is None or moment.sort == "said":
                break
            face.pass_to(moment)
        face.move(name)

    return move


for name_, short_, help_ in MOVES:
    command(name_, short_, "[COUNT]", f"goes {help_}")(mover(name_))


@command("continue", "c cont", "", "runs to the next breakpoint, or else to the next fault or the end")
def continue_(face, _):
    session = face.session
    stop = session.run(session.breakpoints.values())
    fault = next((it for it in session.trace.faults() if it > session.moment.number), None)
    if stop and (fault is None or stop[0].number <= fault):
        face.stop_at(*stop)
    elif fault is not None:
        face.go(session.at(fault))
    elif session.is_at_end:
        face.say("-- this is the end of the run: `back`, `reverse-continue` and `goto` go back")
    else:
        face.go(session.end())


@command("reverse-continue", "rc", "", "runs back to the last breakpoint, or else to the beginning")
def reverse_continue(face, _):
    stop = face.session.run(face.session.breakpoints.values(), is_back=True)
    if stop:
        face.stop_at(*stop)
    else:
        face.go(face.session.first(), "the beginning")


@command("until", "u", f"{PLACE} | NAME OP VALUE", "runs to the next moment of which this is so")
def until(face, rest):
    run_until(face, rest, False)


@command("reverse-until", "ru", f"{PLACE} | NAME OP VALUE", "runs back to the last moment of which this is so")
def reverse_until(face, rest):
    run_until(face, rest, True)


def run_until(face, rest, is_back):
    if not rest:
        raise Wrong("until what? A place, or a condition as count > 3")
    face.go(face.session.until(rest, is_back))


@command("goto", "g", "MOMENT | STEP.SEGMENT",
         "goes to a moment by its number, or to the first statement in a segment of a step")  # fmt: skip
def goto(face, rest):
    first, dot, second = rest.partition(".")
    if not first.isdigit() or dot and not second.isdigit():
        raise Wrong("goto takes the number of a moment, or STEP.SEGMENT")
    if not dot and not 0 < int(first) <= face.session.trace.count:
        raise Wrong(f"the moments are 1 to {face.session.trace.count}")
    face.go(face.session.core.seek(1, "at", first, second) if dot else face.session.at(int(first)))


@command("start", "run r", "", "goes to the first statement of all")
def start(face, _):
    face.go(face.session.first())


@command("end", "", "", "goes to the end of the run")
def end(face, _):
    face.go(face.session.end())


# Breakpoints


@command("break", "b br", f"[{PLACE}] [if NAME OP VALUE]",
         "stops there from now on; without words it lists the breakpoints")  # fmt: skip
def break_(face, rest):
    if not rest:
        list_breakpoints(face)
        return
    added(face, rest, False)


@command("tbreak", "tb", f"[{PLACE}] [if NAME OP VALUE]", "stops there once")
def tbreak(face, rest):
    if not rest:
        raise Wrong("tbreak takes a place")
    added(face, rest, True)


def added(face, rest, is_temporary):
    it = face.session.add(rest, is_temporary)
    face.say(f"breakpoint {it.number}: {it.said}")


@command("watch", "w", "NAME", "stops where a variable of this name has changed")
def watch(face, rest):
    if len(rest.split()) != 1:
        raise Wrong("watch takes the name of a variable")
    added(face, f"changes {rest}", False)


@command("delete", "d", "[NUMBER]", "drops a breakpoint, or all of them")
def delete(face, rest):
    kept = face.session.breakpoints
    if not rest:
        kept.clear()
    elif not rest.isdigit() or int(rest) not in kept:
        raise Wrong(f"there is no breakpoint {rest}")
    else:
        del kept[int(rest)]


def list_breakpoints(face):
    kept = face.session.breakpoints.values()
    for it in kept:
        once = ", once" if it.is_temporary else ""
        hits = f", met {it.hits} time{'' if it.hits == 1 else 's'}" if it.hits else ""
        face.say(f"{it.number}: {it.said}{once}{hits}")
    if not kept:
        face.say("there are no breakpoints")
