"""A small Debian without the kit, in a folder, in which packages are tried."""
import functools
import os
import shutil
import subprocess
import sys

from . import checking
from .checking import Skipped
from .places import in_top

FOLDER = in_top("out", "root")
RELEASE = "bookworm"
# What is in it beside what each Debian has: what a package needs, and what finds its files.
WITH = ("python3", "man-db", "bash-completion", "zsh", "vim")
# What changes there with each package that is installed.
CHANGING = ("proc", "sys", "dev", "run", "tmp", "var/cache", "var/log", "var/lib/dpkg")
PATH = "PATH=/usr/sbin:/usr/bin:/sbin:/bin"
NOBODY = "--userspec=65534:65534"


@functools.lru_cache(maxsize=None)
def folder():
    """Its folder. It is made once, where checks are asked for by name, and kept."""
    if os.geteuid() or shutil.which("debootstrap") is None:
        raise Skipped("a Debian in a folder needs root and debootstrap")
    if not os.path.isdir(FOLDER):
        if not checking.WORDS:
            raise Skipped("there is no Debian in a folder: 'tools/check_tools package' makes one, by the network")
        make()
    return FOLDER


def make():
    """Makes it from packages of the network, in some minutes."""
    new = f"{FOLDER}.new"
    print(f"check_tools: making a small Debian, which is kept in {FOLDER}", file=sys.stderr, flush=True)
    shutil.rmtree(new, ignore_errors=True)
    words = ["debootstrap", "--variant=minbase", f"--include={','.join(WITH)}", RELEASE, new]
    if subprocess.run(words, stdout=subprocess.DEVNULL, check=False).returncode:
        raise Skipped("debootstrap couldn't make a Debian here")
    os.rename(new, FOLDER)


def words_of(words, at="/", is_root=False):
    """The words of a command that runs there, as nobody or as root."""
    return ["chroot", *([] if is_root else [NOBODY]), folder(), "env", "-i", "-C", at, PATH, "LC_ALL=C.UTF-8", *words]


def paths():
    """The path of each file there, but for those that change."""
    found = set()
    for above, folders, names in os.walk(folder()):
        inside = os.path.relpath(above, folder())
        folders[:] = [it for it in folders if os.path.normpath(os.path.join(inside, it)) not in CHANGING]
        found.update(os.path.join(inside, it) for it in (*folders, *names))
    return found
