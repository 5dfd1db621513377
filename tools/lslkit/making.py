"""The programs that a call runs: each one proved, or without proofs, when it checks itself. Both sorts are kept in out/
until a source changes. A package has its own."""
import os
import sys

from . import about, building, kit, proving, sources, unproved
from .places import in_top
from .progress import Progress

LACKING = {
    about.PROGRAM: f"this package isn't whole: {about.packaged_as(about.PROGRAM)} is missing, or can't be run",
    about.DEBUGGER: "this package has no debugger",
}


def path_of(crate, is_proved):
    """Where the program of a crate is kept."""
    return in_top("out", crate if is_proved else f"{crate}-unproved")


def fresh(crate, is_proved):
    """The path of a program that was made of the sources of its crate as they are; none where there is none."""
    binary = path_of(crate, is_proved)
    return binary if sources.Stamp(crate, binary).is_fresh() else None


def made(crate, is_proved):
    """The path of a program, made anew where a source of its crate changed."""
    return fresh(crate, is_proved) or make(crate, is_proved)


def make(crate, is_proved):
    """Makes a program in its place. Its path."""
    kit.need()
    binary, stamp = path_of(crate, is_proved), sources.Stamp(crate, path_of(crate, is_proved))
    with building.room(os.path.basename(binary), "lsl") as room:
        # Another call may have made it meanwhile.
        if not stamp.is_fresh():
            total, newest = sources.sum_of(crate), sources.newest_of(crate)
            said = about.of_sources(about.PROVED if is_proved else about.UNPROVED)
            new = (proving.make if is_proved else make_unproved)(crate, room)
            stamp.remove()
            about.write(f"{binary}.about", said)
            building.keep(new, binary)
            stamp.write(total, newest)
    return binary


def make_unproved(crate, room):
    """Compiles a program without its proofs, and says so."""
    is_called = crate in about.CALLED
    called = f"the {about.CALLED[crate]}" if is_called else crate
    doing, hint = f"compiling {called} without its proofs", "; './lsl --prove' proves it, in about an hour"
    hint = hint if is_called else ""
    with Progress("lsl", f"{doing}, in a minute or two{hint}", doing) as progress:
        binary = unproved.make(crate, room, progress)
        progress.end(f"compiled {called} without its proofs", hint)
    return binary


def program(is_tried=False, crate=about.PROGRAM):
    """The path of the proved program where there is one, or else, or where it is asked for, of one without proofs. A
    package has one, whatever is asked for."""
    if about.is_package():
        return packaged(crate)
    return (None if is_tried else fresh(crate, is_proved=True)) or made(crate, is_proved=False)


def debugger():
    """The same of the debugger's core."""
    return program(crate=about.DEBUGGER)


def proved(crate=about.PROGRAM):
    """The path of the proved program."""
    return made(crate, is_proved=True)


def packaged(crate):
    """The path of a package's program."""
    if about.packaged(crate) is None:
        raise kit.NotMade(LACKING[crate])
    return about.packaged(crate)


def any_program():
    """The program that a tool is to use: the one that `lsl` hands on, or that `lsl` would use; none where it can't be
    made, which is said."""
    try:
        return os.environ.get("LSL_PROGRAM") or program()
    except kit.NotMade as error:
        print(error.lines("lsl"), file=sys.stderr)
        return None
    except KeyboardInterrupt:
        sys.exit(130)


def last_program():
    """A program that is there already, also an old one; none where there isn't any."""
    kept = (path_of(about.PROGRAM, it) for it in (True, False))
    found = (os.environ.get("LSL_PROGRAM"), about.packaged(about.PROGRAM), *kept)
    return next((it for it in found if it and os.access(it, os.X_OK)), None)


def told(is_tried):
    """What there is to say of the program that `lsl` would use."""
    if about.is_package():
        return about.read(about.ABOUT)
    found = (fresh(about.PROGRAM, it) for it in ((False,) if is_tried else (True, False)))
    binary = next(filter(None, found), None)
    return about.read(f"{binary}.about") if binary else about.of_sources(about.UNBUILT)
