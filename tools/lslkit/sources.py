"""The files that the program is made of, and whether a program was made of them as they are."""
import contextlib
import hashlib
import os
import re

from .places import in_top, text_of, write_text

# Folders of a crate from which no program is made.
ASIDE = ("out", "must-fail", "data")
# Where the tests of a source file begin: they are its last item.
TESTS = re.compile(rb"^#\[cfg\(test\)\]\nmod tests \{", re.M)


def crates():
    """Each crate with the crates of this repository that it names."""
    lines = [it.split("#")[0].partition(":") for it in text_of("crates.txt").splitlines()]
    below = {head.split()[0]: words.split() for head, _, words in lines if head.strip()}
    return {name: [it for it in words if it in below] for name, words in below.items()}


def crates_of(program):
    """The crates that a program depends on, lowest first, and itself."""
    below, order = crates(), []

    def add(name):
        for it in below[name]:
            if it not in order:
                add(it)
        order.append(name)

    add(program)
    return order


def files_of(program):
    """The files that the program is made of: no page, edit, test or build."""
    yield in_top("crates.txt")
    yield in_top("HANDLES")
    for crate in crates_of(program):
        for folder, folders, names in os.walk(in_top("crates", crate)):
            folders[:] = sorted(it for it in folders if it not in ASIDE)
            for name in sorted(names):
                if name.endswith((".rt", ".antt")) and name != "tests.rt":
                    yield os.path.join(folder, name)


def lines_of(names):
    """The lines of the list of crates that these have."""
    lines = text_of("crates.txt").splitlines(True)
    return "".join(it for it in lines if re.match(r"\w*", it)[0] in names)


def newest_of(program):
    """When the youngest of the program's files was written."""
    return max(os.stat(it).st_mtime_ns for it in files_of(program))


def sum_of(program):
    """A sum of what the program's files hold, without their tests."""
    whole = hashlib.sha256()
    for path in files_of(program):
        with open(path, "rb") as file:
            text = file.read()
        if path.endswith("crates.txt"):
            text = repr(sorted((it, crates()[it]) for it in crates_of(program))).encode()
        if path.endswith(".rt"):
            text = TESTS.split(text)[0]
        whole.update(f"{path[len(in_top('')) :]} {len(text)}\n".encode() + text)
    return whole.hexdigest()


class Stamp:
    """What a built program was made of, in a file beside it."""

    def __init__(self, program, binary):
        self.program, self.binary, self.path = program, binary, f"{binary}.sources"

    def is_fresh(self):
        """Whether the program was made of the files as they are. Where none is younger, none is read."""
        if not os.access(self.binary, os.X_OK) or not os.path.exists(self.path):
            return False
        newest = newest_of(self.program)
        if newest <= os.stat(self.path).st_mtime_ns:
            return True
        with open(self.path, encoding="ascii") as file:
            is_same = file.read() == sum_of(self.program)
        if is_same:
            with contextlib.suppress(OSError):
                os.utime(self.path, ns=(newest, newest))
        return is_same

    def remove(self):
        """Says that no program was made: another is about to be put in its place."""
        with contextlib.suppress(FileNotFoundError):
            os.remove(self.path)

    def write(self, total, newest):
        """Notes what the program was made of, as it was read before it was made."""
        write_text(f"{self.path}.new", total)
        os.utime(f"{self.path}.new", ns=(newest, newest))
        os.replace(f"{self.path}.new", self.path)
