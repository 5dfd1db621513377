"""What a program is: its version, its commit, whether it is proved, and with which kit it was made.

A package has the file `ABOUT` at its top, with lines `key: value`, and its programs in `libexec`. Nothing is built
there. A checkout has such a file beside each program that was built."""
import os
import subprocess

from . import kit
from .places import TOP, bytes_of, in_top, write_text

ABOUT = in_top("ABOUT")
# The crates of the programs, and what these are called.
PROGRAM, DEBUGGER = "lsl", "lsl_debug"
CALLED = {PROGRAM: "program", DEBUGGER: "debugger"}
KEYS = ("version", "commit", "proof", "kit")
PROVED = "proved"
UNBUILT = "none; the first call compiles it"
UNPROVED = "none; it checks itself as it runs, and stops where a check fails"
# What git lists of changes that matter to the program.
SOURCES = ("crates", "crates.txt", "HANDLES")


def is_package():
    """Whether this tree is a package, and not a checkout."""
    return os.path.isfile(ABOUT)


def packaged_as(crate):
    """Where a package has a program."""
    return in_top("libexec", crate)


def packaged(crate):
    """The path of a package's program; nothing where it can't be run, and in a checkout."""
    path = packaged_as(crate)
    return path if is_package() and os.access(path, os.X_OK) and os.path.isfile(path) else None


def read(path):
    """What such a file says by its keys. One that it leaves out is unknown."""
    pairs = (line.partition(":") for line in (bytes_of(path) or b"").decode(errors="replace").splitlines())
    said = {key.strip(): value.strip() for key, _, value in pairs}
    return {key: said.get(key) or "unknown" for key in KEYS}


def write(path, said):
    write_text(path, "".join(f"{key}: {said[key]}\n" for key in KEYS))


def version():
    """The version of this repository."""
    lines = (bytes_of(in_top("VERSION")) or b"").decode(errors="replace").split()
    return lines[0] if lines else "unversioned"


def said_by_git(*words):
    """What git prints of this repository; nothing where it doesn't know it."""
    how = {"stdin": subprocess.DEVNULL, "stdout": subprocess.PIPE, "stderr": subprocess.DEVNULL}
    try:
        return subprocess.run(["git", "-C", TOP, *words], check=True, **how).stdout.decode().strip()
    except (OSError, subprocess.CalledProcessError):
        return None


def commit():
    """The commit of the sources, and whether they have changed since."""
    found = said_by_git("rev-parse", "HEAD") if os.path.exists(in_top(".git")) else None
    if found is None:
        return "unknown"
    return f"{found}, with changes" if said_by_git("status", "--porcelain", "--", *SOURCES) else found


def of_sources(proof):
    """What a program is that is made of the sources as they are."""
    try:
        name = kit.version()
    except kit.NotMade:
        name = "unknown"
    return {"version": version(), "commit": commit(), "proof": proof, "kit": name}
