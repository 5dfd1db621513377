"""The checks of packages: what they have, that they run without the kit, and that they leave nothing."""
import atexit
import functools
import os
import re
import shutil
import subprocess
import tarfile
import tempfile

from . import about, bare_root, contents, front, making, packaging, playing
from .checking import Skipped, check, need
from .debugger import commands, looking, moving, terminal  # (looking, moving and terminal for their commands)
from .places import bytes_of, in_top, text_of

LINK = re.compile(r"\]\(([^)#:]+)(?:#[^)]*)?\)")
TALK = "touch Ann\nsay 5 open\nwait 10s\nquit\n"
TRIES = (
    ("lsl --version", "", f"lsl {about.version()}\ncommit: "),
    ("lsl once examples/hello.lsl", "", 'owner 1 "Hello, Avatar!"'),
    ("lsl play examples/door/door.lsl", TALK, '"Door open"'),
    ("lsl replay --show examples/door/door.world", "", "Door is in North"),
    ("lsl debug examples/courier/courier.world", "break walk\ncontinue\nquit\n", "at courier.lsl:13, in walk"),
    ("tools/explain examples/bad/bell.lsl", "", "LSL has the call llSin, and this language hasn't"),
    ("tools/show examples/door/door.out examples/door/door.world", "", "Bob touches Door"),
    ("tools/suite libexec/lsl chat", "", ", 0 failed"),
)
DOCUMENTS = "/usr/share/doc/dishhollow"
BASH = """\
. /usr/share/bash-completion/bash_completion; _completion_loader lsl
COMP_WORDS=(lsl rep) COMP_CWORD=1; _lsl; echo ${COMPREPLY[@]}
"""
INSTALLED = (
    ("lsl once hello.lsl", "Hello, Avatar!"),
    ("lsl play door/door.lsl --touch Ann", "Door open"),
    ("lsl debug door/door.lsl --touch Ann </dev/null", "in state_entry"),
    ("/usr/share/dishhollow/tools/explain bad/bell.lsl", "llSin"),
    ("man -P cat lsl", "compile and run scripts of the Linden Scripting Language"),
    ("man -P cat lsl-debug", "debug scripts of the Linden Scripting Language"),
    (f"bash -c '{BASH}'", "replay"),
    ("zsh -c 'autoload -Uz compinit; compinit -D -u; echo $_comps[lsl]'", "_lsl"),
    ("vim -N -u NONE -es --cmd 'filetype plugin on' -c 'set makeprg?' -c 'q' hello.lsl", "dishhollow/tools/explain"),
)
COMPLETED = """\
. package/lsl.bash
ask() { COMP_WORDS=("$@"); COMP_CWORD=$(($# - 1)); _lsl; printf '%s\\n' "${COMPREPLY[@]}"; }
ask lsl ''; ask lsl once --; ask lsl replay --; ask lsl play x --; ask lsl debug x -
ask lsl once examples/he; ask lsl debug examples/door/
"""
COMMANDS = (*front.COMMANDS, "play", "debug", "server")


def make():
    """Makes both files of a package in a folder that is kept while this runs."""
    room = tempfile.mkdtemp(prefix="lsl-package-")
    atexit.register(shutil.rmtree, room, ignore_errors=True)
    return packaging.make(packaging.programs(is_tried=not making.fresh(about.PROGRAM, is_proved=True)), room)


@functools.lru_cache(maxsize=None)
def made():
    return make()


def debian():
    """The Debian package."""
    if len(made()) < 2:
        raise Skipped("there is no dpkg-deb")
    return made()[1]


def unpacked(room):
    """The folder of the archive's files, unpacked in a folder."""
    with tarfile.open(made()[0]) as archive:
        archive.extractall(room)
        return os.path.join(room, archive.getnames()[0])


def said_by(words, said="", **how):
    """What a command says on both outputs."""
    how = {"stdout": subprocess.PIPE, "stderr": subprocess.STDOUT, "check": False, **how}
    return subprocess.run(words, input=said.encode(), **how).stdout.decode(errors="replace")


def each_runs(at, words_of):
    """Tries what one types first in the folder of a package."""
    for line, said, wanted in TRIES:
        words = line.split()
        words[0] = f"./{words[0]}"
        came = said_by(words_of(words, at), said)
        need(wanted in came, line, "says", came)


@check
def packages_have_the_same_bytes_each_time():
    for one, other in zip(made(), make()):
        need(bytes_of(one) == bytes_of(other), one, "has other bytes than", other)


@check
def links_of_a_package_lead_somewhere():
    with tempfile.TemporaryDirectory() as room:
        top = unpacked(room)
        for folder in (top, os.path.join(top, "docs")):
            for page in (it for it in os.listdir(folder) if it.endswith(".md")):
                for link in LINK.findall(bytes_of(os.path.join(folder, page)).decode()):
                    path = os.path.normpath(os.path.join(folder, link))
                    is_source = path.startswith(os.path.join(top, "crates"))
                    need(is_source or os.path.exists(path), page, "links", link)


@check
def a_package_runs_without_the_kit():
    with tempfile.TemporaryDirectory() as room:
        each_runs(unpacked(room), lambda words, at: ["env", "-i", "-C", at, "PATH=/usr/bin:/bin", *words])


@check
def a_package_runs_in_a_bare_debian():
    with tempfile.TemporaryDirectory(dir=os.path.join(bare_root.folder(), "tmp")) as room:
        os.chmod(room, 0o755)
        each_runs(unpacked(room)[len(bare_root.folder()) :], bare_root.words_of)


@check
def a_debian_package_works_for_anyone_and_leaves_nothing():
    def as_root(*words):
        return said_by(bare_root.words_of(words, is_root=True))

    as_root("dpkg", "--purge", contents.NAME)
    before, deb = bare_root.paths(), os.path.join(bare_root.folder(), "it.deb")
    shutil.copy(debian(), deb)
    came = as_root("dpkg", "--install", "/it.deb")
    try:
        need("Setting up dishhollow" in came and "error" not in came, "dpkg says", came)
        for line, wanted in INSTALLED:
            came = said_by(bare_root.words_of(["sh", "-c", line], f"{DOCUMENTS}/examples"))
            need(wanted in came, line, "says", came)
        as_root("lsl", "once", f"{DOCUMENTS}/examples/hello.lsl")
    finally:
        os.remove(deb)
        came = as_root("dpkg", "--purge", contents.NAME)
    left = bare_root.paths() ^ before
    need("not empty" not in came and not left, "dpkg says", came, "and leaves", *sorted(left))


@check
def lintian_finds_no_error_in_a_package():
    if shutil.which("lintian") is None:
        raise Skipped("there is no lintian")
    found = [it for it in said_by(["lintian", debian()]).splitlines() if it[:2] in ("E:", "W:")]
    need(not found, *found)


@check
def the_manual_pages_render_and_are_whole():
    for name in ("lsl.1", "lsl-debug.1"):
        for line in ("man --warnings -l", "mandoc -Tlint -Wwarning"):
            if shutil.which(line.split()[0]):
                said = said_by(["sh", "-c", f"{line} '{in_top('package', name)}' 2>&1 >/dev/null"])
                need(not said, line, "says of", name, said)
    text, of_debug = text_of("package", "lsl.1"), text_of("package", "lsl-debug.1")
    for word in COMMANDS:
        need(f".It Cm {word}" in text, word, "isn't in the manual page")
    for word in options():
        need(f".It Fl -{word[2:]}" in text, word, "isn't in the manual page")
    for word in commands.COMMANDS:
        need(re.search(rf"(?m)^\.(It )?Cm .*\b{word}\b", of_debug), word, "isn't in the manual page of debug")


def options():
    """Each option of the script `lsl`, but for those of `debug`."""
    own = ("show", "html", "lossy", "explain", "help", "version")
    return {f"--{it}" for it in (*own, *playing.TAKING, *playing.FLAGS)}


@check
def completion_has_each_command_and_option():
    said = said_by(["bash", "-c", COMPLETED], cwd=in_top()).split()
    wanted = {*COMMANDS, *options(), "--adapter", "examples/hello.lsl", "examples/door/door.world"}
    need(wanted <= {*said}, "bash doesn't complete", *sorted(wanted - {*said}))
    text = text_of("package", "_lsl")
    missing = [it for it in (*COMMANDS, *options(), "--adapter") if not re.search(rf"'\*?{it}[:\[]", text)]
    need(not missing, "zsh doesn't complete", *missing)


@check
def the_change_log_has_the_version():
    need(f"\n## [{about.version()}] - " in text_of("CHANGELOG.md"), "CHANGELOG.md has nothing of", about.version())
