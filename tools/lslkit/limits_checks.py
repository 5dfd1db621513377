"""The checks of what the program needs of its system: its stack, and standard output that has no room."""
import fcntl
import os
import resource
import subprocess
import sys
import tempfile

from . import making, nesting, places
from .checking import Skipped, check, need

# What docs/OPERATORS.md says is enough.
STACK = 1024 * 1024
# Asks how many bytes wait in a pipe.
FIONREAD = 0x541B
# Asks how many have room there: Python 3.10 names it.
F_GETPIPE_SZ = 1032
LONG = "default { state_entry() { integer i; for (; i < 4000; ++i) llOwnerSay((string)i + llGetScriptName()); } }"
CARRY = "import sys; sys.path.insert(0, 'tools'); from lslkit import front as it; "
CARRY += "sys.exit(it.carry(sys.argv[1], it.Options(sys.argv[2:])))"


def set_limit(limit, size):
    """Has a process begin with a limit of its system."""
    resource.setrlimit(limit, (size, size))


def with_limit(words, limit, size, **how):
    try:
        return subprocess.run(words, preexec_fn=lambda: set_limit(limit, size), check=False, **how)
    except (subprocess.SubprocessError, ValueError) as error:
        raise Skipped(f"the limit can't be set: {error}")


def script_in(room, text):
    name = os.path.join(room, "a.lsl")
    places.write_text(name, text)
    return name


def carrying(binary, *words):
    """The words that have `lsl` carry a command."""
    return [sys.executable, "-c", CARRY, binary, *words]


@check
def a_megabyte_of_stack_is_enough():
    binary = making.any_program()
    with tempfile.TemporaryDirectory() as room:
        for sort in nesting.SORTS:
            for more, status in ((0, 0), (1, 3)):
                name = script_in(room, nesting.script(sort, more))
                how = {"stdout": subprocess.PIPE, "stderr": subprocess.PIPE}
                done = with_limit([binary, "once", name], resource.RLIMIT_STACK, STACK, **how)
                need(done.returncode == status, sort, more, "ended with", done.returncode, done.stdout)


def read_late(words):
    """A process's status and standard output, which is a pipe that doesn't wait, and is read once it is full."""
    reader, writer = os.pipe()
    fcntl.fcntl(writer, fcntl.F_SETFL, fcntl.fcntl(writer, fcntl.F_GETFL) | os.O_NONBLOCK)
    with subprocess.Popen(words, stdout=writer, stderr=subprocess.DEVNULL, cwd=places.TOP) as running:
        room = fcntl.fcntl(writer, F_GETPIPE_SZ)
        os.close(writer)
        size = 0
        while size < room // 2 and running.poll() is None:
            size = int.from_bytes(fcntl.ioctl(reader, FIONREAD, bytes(4)), sys.byteorder)
        with open(reader, "rb") as file:
            written = file.read()
    return running.returncode, written


@check
def standard_output_without_room_is_waited_for():
    binary = making.any_program()
    with tempfile.TemporaryDirectory() as room:
        name = script_in(room, LONG)
        whole = subprocess.run([binary, "once", name], stdout=subprocess.PIPE, check=True).stdout
        need(len(whole) > 65536, "it says too little")
        for words in ([binary, "once", name], carrying(binary, "once", name)):
            need(read_late(words) == (0, whole), words[0], "wrote otherwise")


@check
def a_file_that_may_not_grow_is_told():
    binary = making.any_program()
    with tempfile.TemporaryDirectory() as room:
        name, out = script_in(room, LONG), os.path.join(room, "out")
        with open(out, "wb") as file:
            how = {"stdout": file, "stderr": subprocess.PIPE, "cwd": places.TOP}
            done = with_limit(carrying(binary, "once", name), resource.RLIMIT_FSIZE, 8192, **how)
        need((done.returncode, os.path.getsize(out)) == (5, 8192), "it ended with", done.returncode, done.stderr)


@check
def what_is_no_regular_file_is_not_read():
    binary = making.any_program()
    with tempfile.TemporaryDirectory() as room:
        world = os.path.join(room, "a.world")
        places.write_text(world, "begin\nend\n")
        os.mkfifo(os.path.join(room, "pipe"))
        for name in ("/dev/zero", os.path.join(room, "pipe"), room):
            how = {"stdout": subprocess.PIPE, "stderr": subprocess.PIPE, "check": False}
            done = subprocess.run([binary, "thaw", name, world], **how)
            need((done.returncode, done.stdout) == (4, b""), name, "ended with", done.returncode)
