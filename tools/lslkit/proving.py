"""Proves a crate and those that it needs, from what the gate proved on this machine where the kit keeps that; and
builds the programs."""
import contextlib
import os
import re
import shutil

from . import about, jobs, kit, sources
from .places import in_top, text_of, write_text
from .progress import Progress

# The memory of a proof, in kilobytes.
PROOF_NEEDS = 4000000
# What a proof from nothing takes in processor minutes, and what no further processor makes shorter: the crates that
# depend on one another.
PROCESSOR_MINUTES = 120
CHAIN_MINUTES = 60
# What a build doesn't read of a crate.
LEFT_OUT = shutil.ignore_patterns("out", "must-fail", "README.md")
# The lines that say of a crate that it is done: of the gate, and of `rt all check`.
DONE_BY_GATE = re.compile(r"rt: (\w+) (?:proved|is kept\b.*)")
BEGUN = re.compile(r"== (\w+)")


def how_long():
    """What is said of the time that a proof takes."""
    minutes = max(PROCESSOR_MINUTES // jobs.count(PROOF_NEEDS), CHAIN_MINUTES)
    kept = ", or a few where 'rt ci' has passed on this machine" if kit.keeps() else ""
    return f"for some {minutes} minutes the first time{kept}; later only what changed is proved"


def make(crate, room):
    """Proves a program, and builds it. Its path."""
    doing = f"proving and building the {about.CALLED[crate]}"
    with Progress("lsl", f"{doing}, {how_long()}", doing) as progress:
        folder = proved(crate, room, progress)
        binary = os.path.join(folder, "out", crate)
        if not kit.keeps():
            build(binary, progress)
        progress.end(f"proved and built the {about.CALLED[crate]}")
    if not os.access(binary, os.X_OK):
        raise kit.NotMade("all is proved, but there is no program: this kit can't be used")
    return binary


def build(binary, progress):
    """Builds the program of a crate that was checked in its place. `rt` then runs it without a word, which it refuses."""
    with contextlib.suppress(FileNotFoundError):
        os.remove(binary)
    with jobs.running(["rt", "run"], cwd=os.path.dirname(os.path.dirname(binary))) as job:
        jobs.wait(job.has_ended, progress.tick)


def proved(crate, room, progress):
    """Proves a crate and those that it needs, each of which leaves its library in its folder `out`: in a copy where
    the gate keeps what it proved, and else in place. The crate's folder there."""
    return by_gate(crate, room, progress) if kit.keeps() else by_checks(crate, progress)


class Count:
    """How many of the crates that one needs are proved."""

    def __init__(self, crate, progress):
        self.progress, self.crates, self.done = progress, sources.crates_of(crate), set()
        self.add()

    def add(self, name=None):
        if name in self.crates:
            self.done.add(name)
        self.progress.tell(f"proved {len(self.done)} of {len(self.crates)} crates")


def follow(words, folder, count, done):
    """Runs a command to its end, and counts each crate that a line of it says is done."""
    with jobs.running(words, cwd=folder) as job:

        def read():
            for line in job.new_lines():
                name = done(line)
                if name:
                    count.add(name)
            count.progress.tick()

        jobs.wait(job.has_ended, read)
        job.need_success()


def by_gate(crate, room, progress):
    """Has the gate prove a copy of these crates: it takes what it has kept of them."""
    copy = copied(crate, os.path.join(room, "copy"))

    def done(line):
        found = DONE_BY_GATE.fullmatch(line)
        return found and found[1]

    follow(["rt", "ci"], copy, Count(crate, progress), done)
    return os.path.join(copy, "crates", crate)


def copied(crate, top):
    """A repository of these crates alone, without their edits that must fail."""
    crates = sources.crates_of(crate)
    for it in crates:
        shutil.copytree(in_top("crates", it), os.path.join(top, "crates", it), ignore=LEFT_OUT)
    # `rt ci` wants to be at the top of a repository, and takes this for one.
    os.mkdir(os.path.join(top, ".git"))
    write_text(os.path.join(top, "crates.txt"), sources.lines_of(crates))
    write_text(os.path.join(top, "HANDLES"), text_of("HANDLES"))
    return top


def by_checks(crate, progress):
    """Has each of these crates checked in its place."""
    folder, count, under_way = in_top("crates", crate), Count(crate, progress), []

    def done(line):
        """The crate before the one that is begun here is done: one that was proved before says nothing more."""
        begun = BEGUN.match(line)
        if begun:
            under_way.append(begun[1])
        return under_way[-2] if begun and len(under_way) > 1 else None

    follow(["rt", "all", "check", "--jobs", str(jobs.count(PROOF_NEEDS))], folder, count, done)
    return folder
