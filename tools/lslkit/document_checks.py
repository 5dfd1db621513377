"""Checks of the documents: their links, the commands in them with what these print, and names that must exist."""
import contextlib
import fnmatch
import glob
import os
import re
import subprocess
import tempfile

from . import making, places
from .checking import check, need

PAGES = ("README.md", "CONTRIBUTING.md", "docs/*.md", "bench/README.md", "crates/*/README.md")
CODE_BLOCK = re.compile(r"(?ms)^```.*?^```$")
CODE = re.compile(r"`[^`\n]*`")
SESSION = re.compile(r"(?ms)^```\n(\$ .*?)^```$")
BLOCK = re.compile(r"(?ms)^```\n(.*?)^```$")
TYPED = re.compile(r"(?m)^((?:\./lsl|tools/\w+)\b[^#\n]*)")
# A word in capitals is the reader's to replace. The slow ones take minutes, or need the kit.
PLACEHOLDER = re.compile(r"\b[A-Z]{3,}\b")
SLOW = ("./lsl --prove", "tools/check", "tools/gate", "tools/package", "tools/page")
SPOKEN = re.compile(r"(?m)^\$ (.*)\n((?:(?!\$ ).*\n)*)")
LINK = re.compile(r"\]\(([^()\s]+)\)")
HEADING = re.compile(r"(?m)^#{1,6} +(.*?) *$")
NAMED_PAGE = re.compile(r"\bdocs/[A-Z]+\.md\b")


def pages():
    found = [it for pattern in PAGES for it in sorted(glob.glob(places.in_top(pattern)))]
    return [os.path.relpath(it, places.TOP) for it in found]


def prose(page):
    return CODE_BLOCK.sub("", places.text_of(page))


def anchor(heading):
    """The anchor that GitHub gives a heading."""
    text = re.sub(r"\[([^\]]*)\]\([^)]*\)", r"\1", heading)
    return re.sub(r"[^\w\- ]", "", text.lower()).replace(" ", "-")


def anchors(page):
    return {anchor(it) for it in HEADING.findall(prose(page))}


def broken(page, link):
    """What is wrong with a link of a page, or None."""
    path, _, wanted = link.partition("#")
    target = os.path.normpath(os.path.join(os.path.dirname(page), path)) if path else page
    if not os.path.exists(places.in_top(target)):
        return f"{page} links to {link}, and there is no {target}"
    if wanted and wanted not in anchors(target):
        return f"{page} links to {link}, and {target} has no such heading"
    return None


@check
def every_link_resolves():
    for page in pages():
        for link in LINK.findall(CODE.sub("", prose(page))):
            fault = None if re.match(r"[a-z]+:", link) else broken(page, link)
            need(fault is None, fault)


@check
def every_page_that_a_file_names_is_there():
    tracked = subprocess.run(["git", "ls-files", "-z"], cwd=places.TOP, stdout=subprocess.PIPE, check=True).stdout
    for name in filter(None, tracked.decode().split("\0")):
        text = (places.bytes_of(places.in_top(name)) or b"").decode(errors="replace")
        for page in NAMED_PAGE.findall(text):
            need(os.path.exists(places.in_top(page)), name, "names", page, "which isn't there")


def sessions():
    """The pages with commands after a `$`, and these commands, each with what it prints there. The debugger's sessions
    are typed by its own checks."""
    for page in (it for it in pages() if not it.startswith("crates/")):
        for session in SESSION.findall(places.text_of(page)):
            if not session.startswith("$ lsl debug "):
                yield page, SPOKEN.findall(session)


def typed_commands():
    """The pages with commands that are shown without their output, and these commands."""
    for page in (it for it in pages() if not it.startswith("crates/")):
        for block in BLOCK.findall(places.text_of(page)):
            for command in TYPED.findall(block):
                if not PLACEHOLDER.search(command) and not command.startswith(SLOW):
                    yield page, command.strip()


def run_in(room, command):
    """Runs a command as it is typed at the top of the repository, in a folder that has the examples."""
    typed = re.sub(r"^(\./lsl|tools/\w+)", lambda it: os.path.join(places.TOP, it[0]), command)
    environment = {**os.environ, "LSL_PROGRAM": making.any_program()}
    how = {"stdin": subprocess.DEVNULL, "stdout": subprocess.PIPE, "cwd": room, "env": environment, "check": False}
    return subprocess.run(["bash", "-c", typed], **how)


@contextlib.contextmanager
def room_with_examples():
    with tempfile.TemporaryDirectory() as room:
        os.symlink(places.in_top("examples"), os.path.join(room, "examples"))
        yield room


def form_of(shown):
    """What a document shows, as a pattern: a line of points is any number of lines."""
    return "".join("(?:.*\n)*" if set(it) == {"."} else re.escape(it) + "\n" for it in shown.splitlines())


@check
def each_command_of_the_documents_prints_what_they_say():
    for page, session in sessions():
        with room_with_examples() as room:
            for command, shown in session:
                said = run_in(room, command).stdout.decode()
                need(re.fullmatch(form_of(shown), said), page, "has", command, "which prints", said)


@check
def each_command_of_the_documents_ends_well():
    with room_with_examples() as room:
        for page, command in typed_commands():
            need(run_in(room, command).returncode == 0, page, "has", command, "which fails")


def crates_below():
    """Each crate, and the crates of this repository that it depends on."""
    lines = [it.partition(":") for it in places.text_of("crates.txt").splitlines() if not it.startswith("#")]
    needs = {head.split()[0]: set(words.split()) for head, _, words in lines if head}
    return {it: low & set(needs) for it, low in needs.items()}


def rows_of_the_map(crates):
    """The crates of each row of the map in docs/ARCHITECTURE.md, from its top."""
    table = places.text_of("docs", "ARCHITECTURE.md").partition("\n| crate |")[2].partition("\n\n")[0]
    for row in table.splitlines()[2:]:
        forms = re.findall(r"`([^`]+)`", row.split(" | ", 1)[0])
        yield {it for form in forms for it in fnmatch.filter(crates, form)}


@check
def the_map_names_each_crate_after_those_below_it():
    below, named = crates_below(), set()
    for row in rows_of_the_map(below):
        named |= row
        late = {low for it in row for low in below[it]} - named
        need(not late, "docs/ARCHITECTURE.md names", *sorted(row), "before", *sorted(late))
    need(named == set(below), "docs/ARCHITECTURE.md doesn't name", *sorted(set(below) - named))


def guards():
    """What the table of rules in docs/PROOFS.md names as fixing a rule."""
    table = places.text_of("docs", "PROOFS.md").partition("\n| rule |")[2].partition("\n\n")[0]
    return {it for row in table.splitlines()[2:] for it in CODE.findall(row.split(" | ", 1)[1])}


def names_in(pattern, form):
    """The names of a form in all files of a pattern."""
    files = glob.glob(places.in_top("crates", *pattern), recursive=True)
    return {it for file in files for it in re.findall(form, places.text_of(file))}


@check
def each_guard_of_a_rule_exists():
    cases = names_in(("*", "data", "*.cases"), r"(?m)^\? (\S+)$")
    functions = names_in(("*", "src", "**", "*.rt"), r"\bfn (\w+)")
    files = set(os.listdir(places.in_top("suite")))
    for name in (it.strip("`") for it in guards()):
        is_there = name in cases | functions | files
        if name.endswith("*"):
            is_there = any(it.startswith(name[:-1]) for it in cases)
        need(is_there, "docs/PROOFS.md names", name, "and there is no such law, test, case or file")
