"""What is said while something is built: one line on standard error, on a terminal written anew with the seconds."""
import os
import sys
import time

# The width of a terminal that doesn't tell its own.
COLUMNS = 80


class Progress:
    """Where standard error is no terminal, its only line says what begins. On a terminal the line says what is being
    done and for how long, and at the end what was done."""

    def __init__(self, tool, begins, doing):
        self.tool, self.doing, self.step, self.begun, self.shown = tool, doing, "", time.monotonic(), ""
        self.is_terminal = sys.stderr.isatty()
        if not self.is_terminal:
            print(f"{tool}: {begins}", file=sys.stderr, flush=True)

    def __enter__(self):
        return self

    def __exit__(self, *_):
        self.clear()

    @property
    def seconds(self):
        return int(time.monotonic() - self.begun)

    def tell(self, step):
        """Names what is done now."""
        self.step = step
        self.tick()

    def tick(self):
        """Shows the seconds, on a terminal."""
        if self.is_terminal:
            self.show(f"{self.tool}: {self.doing}, {self.seconds} s: {self.step}")

    def end(self, done, hint=""):
        """Says what was done and in how many seconds, on a terminal."""
        if self.is_terminal:
            self.clear()
            print(f"{self.tool}: {done} in {self.seconds} s{hint}", file=sys.stderr, flush=True)

    def clear(self):
        """Takes the line away."""
        if self.shown:
            self.show("")
            sys.stderr.write("\r")
            sys.stderr.flush()

    def show(self, line):
        line = line[: (os.get_terminal_size(sys.stderr.fileno()).columns or COLUMNS) - 1]
        if line != self.shown:
            sys.stderr.write("\r" + line.ljust(len(self.shown)))
            sys.stderr.flush()
            self.shown = line
