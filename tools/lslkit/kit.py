"""The Rattle kit: where it is, which one it is, and folders of links to it, with commands of ours in place of some."""
import functools
import os
import shutil
import subprocess

from .places import write_text

# A compiler that keeps the module of a call that has a word, and with what words it was called, and doesn't compile it.
KEEPER = """#!/bin/sh
for word in "$@"; do case "$word" in module.bc | */module.bc) module=$word ;; esac; done
case "${{module:+ $* }}" in *" {word}"*) cp "$module" '{kept}' && printf '%s\\n' "$@" > '{kept}.new' &&
    mv '{kept}.new' '{kept}.words' && {then} ;; esac
exec '{clang}' "$@"
"""
MISSING = """\
the program has to be built from its sources here, and the command for that, 'rt', isn't on the PATH.
Get the package of Dishhollow for Linux, which has the program and needs nothing more; or ask whoever gave you these
sources for the Rattle kit, of which 'rt' is a part, and put its folder bin/ on the PATH (docs/ARCHITECTURE.md)."""


class NotMade(Exception):
    """Why something wasn't made, and what a command said of it."""

    def __init__(self, why, said=""):
        super().__init__(why)
        self.said = said

    def lines(self, tool):
        """The words for standard error."""
        return f"{self.said}{tool}: {self}"


def said_by(*words, must_succeed=True):
    """What a command prints."""
    how = {"stdin": subprocess.DEVNULL, "stdout": subprocess.PIPE, "stderr": subprocess.STDOUT}
    try:
        ran = subprocess.run(words, check=must_succeed, **how)
    except (OSError, subprocess.CalledProcessError):
        raise NotMade(f"'{' '.join(words)}' doesn't work") from None
    return ran.stdout.decode(errors="replace")


def need():
    """Fails where there is no kit."""
    if shutil.which("rt") is None:
        raise NotMade(MISSING)


@functools.lru_cache(maxsize=None)
def folder():
    """The folder of the kit."""
    need()
    return os.path.dirname(said_by("rt", "doc").strip())


@functools.lru_cache(maxsize=None)
def version():
    """The kit's name for itself."""
    need()
    return said_by("rt", "version").strip()


@functools.lru_cache(maxsize=None)
def keeps():
    """Whether its gate keeps what it proved, for later runs on this machine."""
    # The help of `rt` ends with status 2.
    return "rt ci NAME.." in said_by("rt", "help", must_succeed=False)


def path(*names):
    """The path of a file of the kit."""
    return os.path.join(folder(), *names)


def clang():
    return path("toolchain", "bin", "clang")


def as_text(bitcode, text):
    """The command that writes a module of LLVM as text, as it is."""
    return [clang(), "-S", "-emit-llvm", "-O0", "-Xclang", "-disable-llvm-passes", "-x", "ir", bitcode, "-o", text]


def link(real, made, but=()):
    """Makes a folder with links to what another has, but for some names."""
    os.makedirs(made)
    for name in os.listdir(real):
        if name not in but:
            os.symlink(os.path.join(real, name), os.path.join(made, name))


def write_command(path, text):
    write_text(path, text)
    os.chmod(path, 0o755)


def with_commands(room, texts):
    """A kit of links in a folder, with commands of these texts in place of its own."""
    made = os.path.join(room, "kit")
    # These look for their kit in the folder that they are in.
    copied = ("rt", "rtlib.py")
    link(path(), made, ("bin",))
    link(path("bin"), os.path.join(made, "bin"), (*copied, *texts))
    for it in copied:
        shutil.copy2(path("bin", it), os.path.join(made, "bin", it))
    for name, text in texts.items():
        write_command(os.path.join(made, "bin", name), text)
    return made


def with_keeper(room, kept, then, word=""):
    """A toolchain of links in a folder, whose compiler keeps the module of a call that has a word that begins so. What
    the compiler then does is a command of the shell."""
    made = os.path.join(room, "toolchain")
    link(path("toolchain"), made, ("bin",))
    link(path("toolchain", "bin"), os.path.join(made, "bin"), ("clang",))
    keeper = KEEPER.format(word=word, kept=kept, then=then, clang=clang())
    write_command(os.path.join(made, "bin", "clang"), keeper)
    return made
