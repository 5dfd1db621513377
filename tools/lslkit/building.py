"""A room for what is being built. One call builds at a time, and nothing is left over."""
import contextlib
import fcntl
import hashlib
import os
import shutil
import sys
import tempfile

from . import jobs, kit
from .places import TOP, in_top


def path_of(name):
    """The folder for what has this name, the same in each call. It is outside the repository, where the gate allows no
    other list of crates and no other sources."""
    checkout = hashlib.sha256(os.fsencode(TOP)).hexdigest()[:12]
    return os.path.join(tempfile.gettempdir(), f"lsl-{os.getuid()}-{checkout}-{name}")


@contextlib.contextmanager
def room(name, tool):
    """An empty folder, once no other call makes what has this name. It is gone afterwards, and what a call left there
    that was killed is gone before."""
    lock, made = in_top("out", f"{name}.lock"), path_of(name)
    try:
        os.makedirs(in_top("out"), exist_ok=True)
        held = open(lock, "w", encoding="ascii")
    except OSError as error:
        raise kit.NotMade(f"{error.filename} can't be written: {error.strerror}") from None
    with held, jobs.stopped_in_order():
        try:
            fcntl.flock(held, fcntl.LOCK_EX | fcntl.LOCK_NB)
        except BlockingIOError:
            print(f"{tool}: another call is building it; this one waits for that", file=sys.stderr, flush=True)
            fcntl.flock(held, fcntl.LOCK_EX)
        shutil.rmtree(made, ignore_errors=True)
        try:
            os.mkdir(made, 0o700)
            yield made
        except OSError as error:
            raise kit.NotMade(f"it can't be built: {error}") from None
        finally:
            shutil.rmtree(made, ignore_errors=True)


def keep(made, path):
    """Puts a file that was made in its place, in one step."""
    os.makedirs(os.path.dirname(path), exist_ok=True)
    os.replace(shutil.copy2(made, f"{path}.new"), path)
