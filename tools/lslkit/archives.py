"""Writes files as an archive and as a Debian package. The same files give the same bytes: names are sorted, times are
the one that is given, and all belongs to root."""
import gzip
import io
import os
import tarfile
import tempfile
from collections import namedtuple

from . import kit

# A file, with what it holds and whether it can be run; or a link, with what it names.
Entry = namedtuple("Entry", "data is_program link", defaults=(b"", False, None))
PROGRAM, PLAIN = 0o755, 0o644


def moved(name, places):
    """Where a file goes by the first beginning of its name among these pairs; nowhere where none fits."""
    return next((place + name[len(begin) :] for begin, place in places if name.startswith(begin)), None)


def mode_of(entry):
    return PROGRAM if entry.is_program else PLAIN


def folders_of(names):
    """Each folder above these files."""
    found = set()
    for name in names:
        while os.path.dirname(name):
            name = os.path.dirname(name)
            found.add(name)
    return found


def zipped(data):
    return gzip.compress(data, 9, mtime=0)


# An archive


def member(name, kind, mode, when):
    made = tarfile.TarInfo(name)
    made.type, made.mode, made.mtime, made.uname, made.gname = kind, mode, when, "root", "root"
    return made


def members(entries, when):
    """Each file and folder of an archive in the order of their names, with what it holds."""
    for name in sorted({*entries, *folders_of(entries)}):
        entry = entries.get(name)
        if entry is None:
            yield member(name, tarfile.DIRTYPE, PROGRAM, when), b""
        elif entry.link is not None:
            made = member(name, tarfile.SYMTYPE, 0o777, when)
            made.linkname = entry.link
            yield made, b""
        else:
            made = member(name, tarfile.REGTYPE, mode_of(entry), when)
            made.size = len(entry.data)
            yield made, entry.data


def write_tar(path, entries, when):
    """Writes a gzipped archive."""
    packed = io.BytesIO()
    with tarfile.open(fileobj=packed, mode="w", format=tarfile.GNU_FORMAT) as archive:
        for made, data in members(entries, when):
            archive.addfile(made, io.BytesIO(data))
    put(path, zipped(packed.getvalue()))


def put(path, data):
    """Writes a file in one step."""
    os.makedirs(os.path.dirname(path), exist_ok=True)
    with open(f"{path}.new", "wb") as file:
        file.write(data)
    os.replace(f"{path}.new", path)


# A Debian package


def write_tree(room, entries, when):
    """Writes files into a folder, with their folders."""
    for name in sorted(folders_of(entries)):
        os.mkdir(os.path.join(room, name))
        os.chmod(os.path.join(room, name), PROGRAM)
    for name, entry in entries.items():
        path = os.path.join(room, name)
        if entry.link is not None:
            os.symlink(entry.link, path)
            continue
        with open(path, "wb") as file:
            file.write(entry.data)
        os.chmod(path, mode_of(entry))
    for folder, _, names in os.walk(room, topdown=False):
        for name in (*names, "."):
            os.utime(os.path.join(folder, name), (when, when), follow_symlinks=False)


def write_deb(path, entries, when):
    """Writes a Debian package of files. What is in its folder `DEBIAN` says what it is."""
    with tempfile.TemporaryDirectory(prefix="lsl-deb-") as room:
        tree, made = os.path.join(room, "tree"), os.path.join(room, "made.deb")
        os.mkdir(tree)
        os.chmod(tree, PROGRAM)
        write_tree(tree, entries, when)
        # One thread: how many there are changes the bytes.
        words = ["dpkg-deb", "--root-owner-group", "-Zxz", "--threads-max=1", "--build", tree, made]
        kit.said_by("env", f"SOURCE_DATE_EPOCH={when}", *words)
        with open(made, "rb") as file:
            put(path, file.read())
