"""Runs the program, and says what it leaves unsaid: which file couldn't be read, and why one was refused."""
import os
import re
import stat
import subprocess
import sys
import tempfile
from collections import namedtuple

from . import worlds
from .places import bytes_of

# A run: its status, standard output and standard error.
Run = namedtuple("Run", "status output notes")
SIGNALLED = 128


def run(program, words):
    """A whole run."""
    ran = subprocess.run([program, *words], stdout=subprocess.PIPE, stderr=subprocess.PIPE, check=False)
    return Run(status_of(ran.returncode), ran.stdout, ran.stderr)


FIRST_FAULT = re.compile(rb' (\d+):(\d+) fault (\d+)\n\Z')


def checker(binary):
    """What gives the program's first fault of a text, as its line, its column and its number; nothing where the text is
    accepted."""

    room = tempfile.TemporaryDirectory(prefix="lsl-check-")

    def check(text):
        path = os.path.join(room.name, "s.lsl")
        with open(path, "wb") as file:
            file.write(text)
        found = FIRST_FAULT.search(run(binary, ["check", path]).output)
        return tuple(map(int, found.groups())) if found else None

    return check


def status_of(returned):
    return returned if returned >= 0 else SIGNALLED - returned


def lines_of(output):
    """The lines of an output that end at a line feed."""
    return output.decode(errors="surrogateescape").split("\n")[:-1]


def is_plain(name):
    """Whether a file is a regular one, or isn't there: reading any other may wait for ever."""
    try:
        return stat.S_ISREG(os.stat(name).st_mode)
    except OSError:
        return True


def are_plain(name, is_world):
    """The same of a command's file and of those that it names."""
    return is_plain(name) and all(is_plain(it.file) for it in worlds.named(world_of(name) if is_world else ""))


def unread(name):
    """Why a file can't be read, in words; nothing where it can."""
    try:
        mode = os.stat(name).st_mode
    except OSError as error:
        return "isn't there" if isinstance(error, FileNotFoundError) else f"can't be read: {error.strerror}"
    if stat.S_ISDIR(mode):
        return "is a folder"
    if not stat.S_ISREG(mode):
        return "isn't a regular file"
    return None if os.access(name, os.R_OK) else "may not be read"


def world_of(name):
    """The text of a world file; empty where it can't be read."""
    text = bytes_of(name) if is_plain(name) else None
    return "" if text is None else text.decode(errors="surrogateescape")


def unread_files(name, is_world, frozen=None):
    """Each file of a command that can't be read: its name, who names it, and why it can't."""
    said = unread(name)
    if said:
        return [f'"{name}" {said}']
    named = worlds.named(world_of(name)) if is_world else []
    unfrozen = [f'"{frozen}" {unread(frozen)}'] if frozen is not None and unread(frozen) else []
    return [unread_named(name, it) for it in named if unread(it.file)] + unfrozen


def unread_named(world, it):
    """The words for a script or notecard that can't be read; where it is, if it is there from another folder."""
    sort = "script" if isinstance(it, worlds.Script) else "notecard"
    said = f'"{it.file}", which line {it.line} of "{world}" names as {sort} "{it.name}", {unread(it.file)}'
    folder = folder_of(world, it)
    return f"{said}; {ELSEWHERE} {folder}: go there" if folder else said


ELSEWHERE = "files are read from the folder in which lsl was started, and this one is there from"


def folder_of(world, it):
    """The folder from which a named file is there: the world file's own, or one around it; none where there is none."""
    folder = os.path.dirname(os.path.abspath(world))
    while not os.path.isfile(os.path.join(folder, it.file)):
        if folder == os.path.dirname(folder):
            return None
        folder = os.path.dirname(folder)
    return folder


def shortened(said):
    """What can't be read: of several files that another folder has, the first and how many there are."""
    moved = [it for it in said if ELSEWHERE in it]
    more = f"; so are {len(moved) - 1} more" if len(moved) > 1 else ""
    return [f"{it}{more if it in moved else ''}" for it in said if it not in moved[1:]]


def tell_unread(name, is_world, frozen=None):
    for it in shortened(unread_files(name, is_world, frozen)):
        print(f"lsl: {it}", file=sys.stderr)
