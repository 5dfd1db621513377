"""Linked messages that nobody takes. No journal has them: copies of the scripts with a probe before each statement say
which statements were done that send one."""
import tempfile

from . import journal, past, syntax, tokens
from .observing import Second
from .places import bytes_of

SENDING, TAKEN = "llMessageLinked", "link_message"


def sending_lines(file):
    """The lines of the statements of a script that send a message."""
    try:
        script = syntax.read(tokens.cut(bytes_of(file) or b""))
    except (syntax.Unexpected, RecursionError):
        return set()
    lines = tokens.Lines(bytes_of(file))
    found = set()
    for root in syntax.roots(script):
        for node in syntax.walk(root):
            if node.form == "value" and any(it.form == "call" and it.text == SENDING for it in syntax.walk(node)):
                found.add(lines.line_of(script.tokens[node.first].place))
    return found


def sent(history, steps):
    """The scripts that sent a message at these steps, each as its number and the line of the statement."""
    lines = [sending_lines(it.file) for it in history.world.scripts]
    if not any(lines):
        return []
    before, entries = history.count_after(steps.start), history.after(steps.stop).entries
    told = probes(history, steps.stop, entries)
    found = [(number, it.line) for place, number, it in told if place >= before and it.line in lines[number - 1]]
    return list(dict.fromkeys(found))


def probes(history, count, entries):
    """What the probes of copies told after as many steps; nothing where these do something else."""
    text = past.without_steps(history.text, count)
    with tempfile.TemporaryDirectory(prefix="lsl-messages-") as room:
        second = Second(text, room, with_probes=True, with_marks=False, is_full=True)
        ran = second.run(history.binary)
    if ran.status:
        return []
    kept, observed = second.observe(journal.read(ran.output.decode(errors="surrogateescape")))
    is_same = [it for it in kept if it.word != "home"] == entries
    return [it for it in observed.probes if it[2].sort == "line"] if is_same else []
