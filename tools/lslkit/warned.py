"""Warnings: what the program accepts, and is likely to be a mistake. Each is a small function over the tree of a script
(`syntax`), and its words are a row of tools/words/warnings.json. They promise nothing, and leave out what they can't be
sure of."""
from collections import namedtuple

from . import flow, kinds, naming, syntax, tables, tokens, words
from .syntax import walk

# A warning: its name, the bytes that it covers, the fields of its words, and what else it points at.
Warned = namedtuple("Warned", "name start end fields related")
NEAR_LIMIT, MOST_LISTENS = 20000, 65


class Script:
    """A script's tree with its tokens and names, for the rules."""

    def __init__(self, text):
        self.tokens, self.lines = tokens.cut(text), tokens.Lines(text)
        self.tree = syntax.read(self.tokens)
        self.names = naming.Names(self.tree)
        self.parts = [node for root in syntax.roots(self.tree) for node in walk(root)]
        self.text = text

    def span(self, first, last):
        return self.tokens[first].place, self.tokens[last - 1].end

    def line(self, node):
        return self.lines.line_of(self.tokens[node.at].place)

    def at(self, warning, node, related=(), **fields):
        """A warning at a part of the tree, or at its name."""
        is_named = node.form in (*naming.SORTS, "function", "label")
        span = self.span(node.at, node.at + 1) if is_named else self.span(node.first, node.last)
        return Warned(warning, *span, fields, [self.span(it.at, it.at + 1) for it in related])

    def written(self, node):
        start, end = self.span(node.first, node.last)
        return self.text[start:end].decode(errors="replace")


def conditions(script):
    found = ((node, flow.condition_of(node, script.tokens)) for node in script.parts)
    return [it for it in found if it[1] is not None]


def assignment_as_condition(script):
    for _, value in conditions(script):
        if value.form == "assign" and value.text == "=":
            yield script.at("assignment-as-condition", value, name=value.parts[0].text, text=script.written(value))


def statement_without_effect(script):
    for node in script.parts:
        value = node.parts[0] if node.form == "value" else None
        if value is not None and not any(it.form in ("assign", "step", "call") for it in walk(value)):
            is_comparing = value.form == "binary" and value.text == "=="
            hint = "write = to assign" if is_comparing else "leave it out, or use its value"
            yield script.at("statement-without-effect", value, hint=hint)


def constant_condition(script):
    for node, value in conditions(script):
        known = flow.constant(value)
        if known is None or (node.form == "do" and not known):
            continue
        is_endless = node.form in flow.LOOPS and known
        if is_endless and flow.leaves(flow.body_of(node)):
            continue
        hint = "nothing in the loop leaves it" if is_endless else "compare a variable, or leave the test out"
        yield script.at("constant-condition", value, truth="true" if known else "false", hint=hint)


def unreachable_code(script):
    for block in script.parts:
        for before, after in zip(block.parts, block.parts[1:]) if block.form == "block" else ():
            if before.form in flow.LEAVING and after.form not in ("label", "empty"):
                yield script.at("unreachable-code", after, word=before.form, line=script.line(before))


def unused(script):
    for it in script.names.unused():
        if it.sort == "parameter":
            yield script.at("unused-parameter", it.node, name=it.node.text, function=it.routine.text)
        else:
            yield script.at("unused-variable", it.node, name=it.node.text)
    for it in script.names.uncalled():
        yield script.at("unused-function", it, name=it.text)


def unused_label(script):
    for routine in kinds.bodies(script.tree):
        inside = list(walk(routine))
        jumped = {it.text for it in inside if it.form == "jump"}
        for it in inside:
            if it.form == "label" and it.text not in jumped:
                yield script.at("unused-label", it, name=it.text)


def hidden_variable(script):
    for it in script.names.found:
        if it.hides and it.node.text:
            fields = {"name": it.node.text, "sort": it.hides.sort, "line": script.line(it.hides.node)}
            yield script.at("hidden-variable", it.node, [it.hides.node], **fields)


def missing_return(script):
    for it in script.tree.functions:
        if it.kind and not flow.ends(it.parts[-1], script.tokens):
            article = f"an {it.kind}" if it.kind == "integer" else f"a {it.kind}"
            yield script.at("missing-return", it, name=it.text, article=article)


def empty_body(script):
    for block in script.parts:
        entries = block.parts if block.form == "block" else ()
        for at, node in enumerate(entries):
            after = entries[at + 1] if at + 1 < len(entries) else None
            is_loop = node.form in ("while", "for") and after is not None and after.form == "block"
            is_if = node.form == "if" and len(node.parts) == 2
            if (is_if or is_loop) and node.parts[-1].form == "empty":
                yield script.at("empty-body", node.parts[-1], word=node.form)


def loops(script):
    return [it for it in script.parts if it.form in flow.LOOPS]


def listen_in_loop(script):
    for loop in loops(script):
        calls = [it for it in walk(flow.body_of(loop)) if it.form == "call"]
        is_removed = any(it.text == "llListenRemove" for it in calls)
        for it in calls:
            inner = [part for value in it.parts for part in walk(value) if part.form in ("name", "call")]
            varies = any(part.text not in tables.constants() for part in inner)
            is_few = (flow.rounds(loop, script.tokens) or MOST_LISTENS + 1) <= MOST_LISTENS
            if it.text == "llListen" and varies and not is_removed and not is_few:
                yield script.at("listen-in-loop", it)


def growing_in_loop(script):
    texts = {it.node.text for it in script.names.found if it.node.kind in ("string", "list")}
    for loop in loops(script):
        count = flow.rounds(loop, script.tokens)
        for it in walk(flow.body_of(loop)):
            is_growing = it.form == "assign" and it.text == "+=" and it.parts[0].text in texts
            size = (count or 0) * added_bytes(it.parts[1]) if is_growing else 0
            if size >= NEAR_LIMIT:
                yield script.at("growing-in-loop", it, name=it.parts[0].text, size=f"{size:,}")


def added_bytes(value):
    """How many bytes are added at least."""
    literals = [it for it in walk(value) if it.form == "literal" and it.kind == "string"]
    elements = sum(len(it.parts) for it in walk(value) if it.form == "list")
    return sum(len(it.text) - 2 for it in literals) + 24 * elements or 1


RULES = (
    assignment_as_condition,
    statement_without_effect,
    constant_condition,
    unreachable_code,
    unused,
    unused_label,
    hidden_variable,
    missing_return,
    empty_body,
    listen_in_loop,
    growing_in_loop,
)


def of(text):
    """The warnings of a text in the order of their places; none where it has no tree."""
    try:
        script = Script(text)
    except (syntax.Unexpected, RecursionError):
        return []
    found = [it for rule in RULES for it in rule(script)]
    return sorted(unique(found), key=lambda it: it.start)


def unique(found):
    """Each warning once, where loops in one another give it twice."""
    return list({(it.name, it.start, it.end): it for it in found}.values())


def words_of(warned):
    """What it is, and what to do."""
    row = words.table("warnings")[warned.name]
    return words.filled(row["says"], warned.fields), words.filled(row["hint"], warned.fields)
