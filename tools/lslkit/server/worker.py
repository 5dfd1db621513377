"""A process beside the server that finds what is wrong with a document, so that the server itself can always answer.

It reads requests from standard input and writes replies to standard output, both pickled."""
import contextlib
import os
import pickle
import re
import signal
import subprocess
import sys

from .. import diagnostics, faults, kit, making, program, quoting, worlds, world_hints
from ..diagnostics import Diagnostic
from ..tokens import Lines
from . import fixing

CHECKED = re.compile(r'bad script ".*" (\d+):(\d+) fault (\d+)')
REFUSED = re.compile(r'bad (\w+) "((?:[^"\\]|\\.)*)" (?:line (\d+) |(\d+):(\d+) )?fault (\d+)')
SECONDS = 10
# What is written first, once there is a program or none can be made.
READY = {"ready": True}


class Worker:
    def __init__(self):
        self.binary, self.why = None, None

    def find_program(self):
        """Finds the program, which may have to be compiled first."""
        try:
            self.binary = os.environ.get("LSL_PROGRAM") or making.program()
        except kit.NotMade as error:
            self.why = str(error)
        return READY

    def answer(self, request):
        said = []
        if self.binary:
            said = self.of_world(request) if request["is_world"] else self.of_script(request["text"])
        return {"uri": request["uri"], "version": request["version"], "found": said, "why": self.why}

    # Scripts

    def of_script(self, text):
        return fixing.with_fixes(text, diagnostics.of(text, self.check))

    def check(self, text):
        """The program's first fault of a text, as its line, column and number."""
        with held(text) as (name, number):
            said = said_by([self.binary, "check", name], number)
        found = CHECKED.match(said.decode(errors="surrogateescape"))
        return tuple(map(int, found.groups())) if found else None

    # Worlds

    def of_world(self, request):
        """All lines that have no form, and the first fault that the program finds."""
        text = request["text"].decode(errors="surrogateescape")
        found = {}
        for number, line in enumerate(worlds.lines_of(text), 1):
            if not worlds.is_skipped(line) and worlds.wrong_word(line):
                found[number] = (50, "")
        first = self.refusal(request)
        if first:
            found[first[0]] = first[1:]
        lines = Lines(request["text"])
        return [of_line(text, lines, it, *found[it]) for it in sorted(found)]

    def refusal(self, request):
        """The program's first fault of a world: the line, the fault, and what it says of a file that the line names."""
        with held(request["text"]) as (name, number):
            if not program.are_plain(name, True):
                return None
            line = first_line([self.binary, "replay", name], number, request["folder"])
        refused = REFUSED.match(line)
        if not refused:
            return unread(request)
        sort, file, row, fault = refused[1], quoting.unquoted(refused[2]), refused[3], int(refused[6])
        if sort == "world":
            return max(1, int(row or 0)), fault, ""
        text = request["text"].decode(errors="surrogateescape")
        named = [it.line for it in worlds.named(text) if it.file == file]
        place = f"{file}:{refused[4]}:{refused[5]}" if sort == "script" else f"{file}:{row}"
        return (named[0] if named else 1), fault, place


def unread(request):
    """The first file of a world that can't be read, with its line."""
    text = request["text"].decode(errors="surrogateescape")
    for it in worlds.named(text):
        why = program.unread(os.path.join(request["folder"], it.file))
        if why:
            return it.line, 0, f'"{it.file}" {why}'
    return None


def of_line(text, lines, number, fault, place):
    """A diagnostic of a line of a world. `place` is where the fault is in a file that the line names."""
    rows = worlds.lines_of(text)
    row = rows[number - 1] if number <= len(rows) else ""
    if place:
        column, hints = (worlds.words_of(row)[-1].column if row.strip() else 1), []
        words = f"{place}: {faults.meaning(fault)}" if fault else place
    else:
        column, hints = world_hints.hint(fault, text, number)
        # Where a fault has several meanings, the hints say which one it is.
        words = re.split("[;:]", faults.meaning(fault))[0] if hints else faults.meaning(fault)
    start = min(lines.place_of(number, column), len(text.encode(errors="surrogateescape")))
    end = max(start, lines.place_of(number, len(row.rstrip().encode(errors="surrogateescape")) + 1))
    return Diagnostic("error", str(fault or "unread"), start, end, words, hints, [], [], True)


@contextlib.contextmanager
def held(text):
    """A file in memory with a text: its name for a process that gets its number too."""
    with open(os.memfd_create("script"), "wb") as file:
        file.write(text)
        file.flush()
        yield f"/proc/self/fd/{file.fileno()}", file.fileno()


def said_by(command, number):
    """What a command says, within some seconds."""
    how = {"stdin": subprocess.DEVNULL, "stdout": subprocess.PIPE, "stderr": subprocess.DEVNULL, "pass_fds": [number]}
    try:
        return subprocess.run(command, timeout=SECONDS, check=False, **how).stdout
    except subprocess.TimeoutExpired:
        return b""


def first_line(command, number, folder):
    """The first line that a command prints, which is ended then."""
    how = {"stdin": subprocess.DEVNULL, "stdout": subprocess.PIPE, "stderr": subprocess.DEVNULL, "pass_fds": [number]}
    with subprocess.Popen(command, cwd=folder, **how) as running:
        line = running.stdout.readline()
        running.kill()
    return line.decode(errors="surrogateescape").rstrip("\n")


def main():
    signal.signal(signal.SIGINT, signal.SIG_DFL)
    worker, source = Worker(), sys.stdin.buffer
    # What anything prints goes to standard error: the output is for replies alone.
    replies, sys.stdout = sys.stdout.buffer, sys.stderr
    reply = worker.find_program()
    while True:
        pickle.dump(reply, replies)
        replies.flush()
        try:
            request = pickle.load(source)
        except EOFError:
            return
        try:
            reply = worker.answer(request)
        except Exception as error:  # pylint: disable=broad-except
            print(f"lsl-server: {type(error).__name__}: {error}", file=sys.stderr)
            reply = {"uri": request["uri"], "version": request["version"], "found": [], "why": None}


if __name__ == "__main__":
    main()
