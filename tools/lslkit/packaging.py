"""Makes a package for people without the kit, as an archive and for Debian."""
import os
import re
import shutil
import sys

from . import about, archives, contents, debian, kit, making
from .kit import NotMade

NEEDED = re.compile(r"(?m)^ +NEEDED +(\S+)$")
GLIBC = re.compile(r"\bGLIBC_([0-9.]+)")


def programs(is_tried):
    """The programs for a package, by their crates."""
    if is_tried:
        return {it: making.program(True, it) for it in about.CALLED}
    found = {it: making.fresh(it, is_proved=True) for it in about.CALLED}
    if not found[about.PROGRAM]:
        hint = "'./lsl --prove' makes it, and 'tools/package --try' takes the one without proofs"
        raise NotMade(f"there is no proved program of these sources: {hint}")
    if not found[about.DEBUGGER]:
        print("package: the debugger is left out: './lsl --prove' makes it", file=sys.stderr)
    return {crate: it for crate, it in found.items() if it}


def libc_of(binaries):
    """The least version of the C library that programs need. They need no other library."""
    found = []
    for it in binaries:
        said = kit.said_by("objdump", "-p", it)
        if NEEDED.findall(said) != ["libc.so.6"]:
            raise NotMade(f"{it} needs more than the C library: {' '.join(NEEDED.findall(said))}")
        found += GLIBC.findall(said)
    return max(found, key=lambda it: [int(part) for part in it.split(".")])


def when():
    """The time that all files of a package have, in seconds."""
    return int(os.environ.get("SOURCE_DATE_EPOCH") or contents.git("log", "-1", "--format=%ct"))


def make(binaries, folder):
    """Makes the archive, and the Debian package where there is dpkg-deb, of the programs of crates. Their paths."""
    name, then, files = f"{contents.NAME}-{about.version()}", when(), contents.entries(binaries)
    archive = os.path.join(folder, f"{name}-linux-x86_64.tar.gz")
    archives.write_tar(archive, {f"{name}/{path}": it for path, it in files.items()}, then)
    if shutil.which("dpkg-deb") is None:
        return [archive]
    deb = os.path.join(folder, f"{contents.NAME}_{about.version()}_amd64.deb")
    archives.write_deb(deb, debian.entries(files, libc_of(binaries.values())), then)
    return [archive, deb]
