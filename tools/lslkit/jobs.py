"""Commands that run side by side, and that end with this process, however it ends."""
import contextlib
import ctypes
import os
import re
import signal
import subprocess
import sys
import tempfile
import time

from . import kit

PR_SET_PDEATHSIG = 1
SECONDS_BETWEEN, SECONDS_TO_END = 0.05, 5
STOPPING = (signal.SIGTERM, signal.SIGHUP)


def count(needs):
    """How many commands may run side by side that need so many kilobytes of memory each."""
    processors = len(os.sched_getaffinity(0))
    try:
        with open("/proc/meminfo", encoding="ascii") as file:
            memory = int(re.search(r"MemTotal: *(\d+)", file.read())[1])
    except (OSError, TypeError):
        return min(processors, 2)
    return max(1, min(processors, memory // needs))


def end_with_parent():
    """Has the system end a command when this process is killed."""
    ctypes.CDLL(None).prctl(PR_SET_PDEATHSIG, signal.SIGKILL)


class Job:
    """A command that runs, in a process group of its own."""

    def __init__(self, words, **how):
        self.words, self.output, self.seen = words, tempfile.TemporaryFile(), 0
        how = {"stdin": subprocess.DEVNULL, "stdout": self.output, "stderr": subprocess.STDOUT, **how}
        try:
            self.process = subprocess.Popen(words, start_new_session=True, preexec_fn=end_with_parent, **how)
        except OSError as error:
            raise kit.NotMade(f"{words[0]} can't be run: {error.strerror}") from None

    def has_ended(self):
        return self.process.poll() is not None

    def new_lines(self):
        """The lines that it has written since the last call."""
        said = os.pread(self.output.fileno(), 1 << 20, self.seen)
        whole = said[: said.rfind(b"\n") + 1]
        self.seen += len(whole)
        return whole.decode(errors="replace").splitlines()

    def said(self, most=4000):
        """The end of its output, once it has ended."""
        self.output.seek(0)
        return self.output.read().decode(errors="replace")[-most:]

    def need_success(self):
        if self.process.returncode:
            raise kit.NotMade(f"{os.path.basename(self.words[0])} ended with {self.process.returncode}", self.said())

    def stop(self):
        for number in (signal.SIGTERM, signal.SIGKILL):
            if not self.has_ended():
                os.killpg(self.process.pid, number)
                with contextlib.suppress(subprocess.TimeoutExpired):
                    self.process.wait(SECONDS_TO_END)
        self.output.close()


@contextlib.contextmanager
def running(words, **how):
    """Runs a command, which is stopped where it hasn't ended."""
    job = Job(words, **how)
    try:
        yield job
    finally:
        job.stop()


def wait(is_done, tick):
    """Waits until something is so, and has progress shown meanwhile."""
    while not is_done():
        tick()
        time.sleep(SECONDS_BETWEEN)


def run(words, tick=lambda: None, **how):
    """Runs a command, and returns the end of its output."""
    with running(words, **how) as job:
        wait(job.has_ended, tick)
        job.need_success()
        return job.said()


def run_all(commands, at_once, ended, tick):
    """Runs commands, so many at once, and says of each by its number that it has ended well."""
    left, under_way = list(enumerate(commands)), []
    try:
        while left or under_way:
            while left and len(under_way) < at_once:
                number, words = left.pop(0)
                under_way.append((number, Job(words)))
            for number, job in [it for it in under_way if it[1].has_ended()]:
                job.need_success()
                under_way.remove((number, job))
                job.stop()
                ended(number)
            tick()
            time.sleep(SECONDS_BETWEEN)
    finally:
        for _, job in under_way:
            job.stop()


def exit_on(number, _):
    sys.exit(128 + number)


@contextlib.contextmanager
def stopped_in_order():
    """Has a signal that ends this process end it as an exception, so that nothing is left over."""
    before = {it: signal.signal(it, exit_on) for it in STOPPING}
    try:
        yield
    finally:
        for number, handler in before.items():
            signal.signal(number, handler)
