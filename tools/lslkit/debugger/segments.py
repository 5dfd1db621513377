"""In which segment of a step a script stops for good."""
from .. import snapshot

LAST = 1000000


def script_at(core, number, step, segment):
    """A script as it is after a segment of a step."""
    return snapshot.scripts(core.state((step, segment)))[number - 1]


def is_dead(core, number, step, segment):
    return script_at(core, number, step, segment).rest == "dead"


def last_segment(core, number, step, first):
    """The segment before the one in which a script stops, from one on in which it hasn't."""
    size = 1
    while not is_dead(core, number, step, min(first + size, LAST)):
        first, size = first + size, 2 * size
    end = first + size
    while first + 1 < end:
        middle = (first + end) // 2
        first, end = (first, middle) if is_dead(core, number, step, middle) else (middle, end)
    return first


def late(core, number, step, segment):
    """How many segments the script goes on for after the one in which its fault is told."""
    return 0 if is_dead(core, number, step, segment) else last_segment(core, number, step, segment) - segment + 1
