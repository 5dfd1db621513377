"""A copy of a script that tells where it is: its state, its handler, the line of the statement that it began last.

Each probe is a statement `llOwnerSay("..");`, which nobody hears and which passes no tick. What a copy does is
compared with what the script does before anything is taken from it: one that does something else tells nothing."""
import hashlib
from collections import namedtuple

from . import syntax, tokens

# What a probe tells: `state` the state in which a handler is, `to` the one that it goes to, `reset` that it resets
# its script, `line` where it is, with the name of the function or the event; and the line of that place.
Probe = namedtuple("Probe", "sort name line")
LOOPS = ("while", "do", "for")
OWN_WAITS = {"llSleep", "llResetScript"}


class Prober:
    """Puts probes into one script's text."""

    def __init__(self, text, mark, probes, is_full=False):
        self.text, self.mark, self.probes, self.is_full, self.routine = text, mark, probes, is_full, ""
        self.tokens, self.lines = tokens.cut(text), tokens.Lines(text)
        self.script = syntax.read(self.tokens)
        self.functions = {it.text for it in self.script.functions}
        self.inserts = []

    def probed(self):
        for function in self.script.functions:
            self.routine = function.text
            self.statement(function.parts[-1])
        for state in self.script.states:
            for handler in state.parts:
                self.routine = handler.text
                self.insert(self.tokens[handler.parts[-1].first].end, 1, self.probe("state", state.text, handler.at))
                self.statement(handler.parts[-1])
        text, last = b"", 0
        for place, _, piece in sorted(self.inserts, key=lambda it: it[:2]):
            text += self.text[last:place] + piece
            last = place
        return text + self.text[last:]

    def insert(self, place, order, piece):
        self.inserts.append((place, order, piece.encode()))

    def probe(self, sort, name, at):
        self.probes.append(Probe(sort, name or self.routine, self.lines.line_of(self.tokens[at].place)))
        return f'llOwnerSay("{self.mark}{len(self.probes) - 1}");'

    def waits(self, value):
        """Whether a tick may pass in a value."""
        names = {it.text for it in syntax.walk(value) if it.form == "call"}
        return not names.isdisjoint(self.functions | OWN_WAITS)

    def own_values(self, node):
        return [it for it in node.parts if it.form not in STATEMENTS]

    def before(self, node):
        """The probe before a statement, where a tick may pass in it."""
        if node.form == "state":
            return self.probe("to", node.text, node.first)
        if node.form == "value" and node.parts[0].form == "call" and node.parts[0].text == "llResetScript":
            return self.probe("reset", "", node.first)
        is_told = self.is_full and node.form not in ("label", "empty", "block")
        is_told = is_told or node.form in (*LOOPS, "jump") or any(map(self.waits, self.own_values(node)))
        return self.probe("line", "", node.first) if is_told else ""

    def statement(self, node):
        """Probes in a block or in a statement that is in one."""
        for part in node.parts:
            if part.form in STATEMENTS and node.form == "block":
                self.insert(self.tokens[part.first].place, 2, self.before(part))
                self.statement(part)
            elif part.form in STATEMENTS:
                self.body(part, self.probe("line", "", node.at) if node.form in LOOPS else "")

    def body(self, node, behind):
        """Probes in the body of a loop or of an `if`, and the one after it."""
        if node.form == "block":
            self.statement(node)
            self.insert(self.tokens[node.last - 1].place, 0, behind)
            return
        before = self.before(node)
        self.insert(self.tokens[node.first].place, 2, "{" + before)
        self.statement(node)
        self.insert(self.tokens[node.last - 1].end, 0, behind + "}")


STATEMENTS = {"block", "declare", "label", "value", "empty", "if", "while", "do", "for", "jump", "state", "return"}


def mark_of(texts):
    """What begins each probe's text, which no script of these says by chance."""
    return "probe " + hashlib.sha256(b"\0".join(texts)).hexdigest()[:16] + " "


def probed(text, mark, probes, is_full=False):
    """The copy of a script's text with probes, which are added to `probes`; the text itself where it can't be read. A
    full copy has one before each statement, and else they are where a tick may pass."""
    known = len(probes)
    try:
        return Prober(text, mark, probes, is_full).probed()
    except (syntax.Unexpected, RecursionError):
        del probes[known:]
        return text
