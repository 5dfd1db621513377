"""Where the scripts are whose handlers were cut: the event, and the line of the innermost active call."""
import re

from . import snapshot, worlds
from .quoting import quoted

ONCE = """object 00000000-0000-0000-0000-000000000001 "Object" 00000000-0000-0000-0000-000000000002 "here"
script "New Script" %s

begin
run 1000000
end
"""
# The bytes of a journal up to which the world is run again, and frozen, for the lines.
MOST = 40000000


def world_of_once(name):
    """The text of the world that `once FILE` plays."""
    return ONCE % quoted(name)


class Follower:
    """Follows a journal in pieces as it is written: which scripts are in a handler, and its size."""

    LINE = re.compile(rb"^(took|done|fault) (\d+)(?: (\w+))?", re.M)

    def __init__(self):
        self.left, self.running, self.size = b"", {}, 0

    def feed(self, piece):
        self.size += len(piece)
        whole, feed, self.left = (self.left + piece).rpartition(b"\n")
        for word, script, event in self.LINE.findall(whole + feed):
            if word == b"took":
                self.running[int(script)] = event.decode()
            else:
                self.running.pop(int(script), None)


def told(binary, text, follower):
    """For each script that is in a handler: its number, its name, the event, and the line or none."""
    if not follower.running:
        return []
    names = [it.name for it in worlds.read(text).scripts]
    calls = follower.size <= MOST and snapshot.calls_after(binary, text) or [[]] * len(names)
    return [(it, names[it - 1], event, line_of(calls[it - 1])) for it, event in sorted(follower.running.items())]


def line_of(calls):
    """The line of the innermost active call."""
    return calls[0][1] if calls else None
