"""A script's text while its faults are mended one after another, so that the program finds the next one: each byte
knows where it stood in the text as it was written, and whether it was put in."""
from . import syntax, tokens

# What can replace a value of each kind.
VALUES = {"integer": b"0", "string": b'""', "list": b"[]", "key": b'((key)"")'}
STATEMENTS = (*"block declare label value empty if while do for jump state return".split(),)


class Mended:
    """The text, the place that each of its bytes had, and which were put in."""

    def __init__(self, text):
        self.text, self.origins, self.put = text, list(range(len(text) + 1)), bytearray(len(text) + 1)

    def copy(self):
        other = Mended(b"")
        other.text, other.origins, other.put = self.text, self.origins[:], self.put[:]
        return other

    def replace(self, start, end, new):
        """Puts a text in the place of another, with as many lines."""
        new += b"\n" * max(0, self.text.count(b"\n", start, end) - new.count(b"\n"))
        self.text = self.text[:start] + new + self.text[end:]
        self.origins[start:end] = [self.origins[start]] * len(new)
        self.put[start:end] = b"\1" * len(new)

    def apply(self, edits):
        """Puts several texts, whose places are those before any of them."""
        for start, end, new in sorted(edits, reverse=True):
            self.replace(start, end, new)

    def origin(self, place):
        return self.origins[min(place, len(self.origins) - 1)]

    def is_put(self, start, end):
        """Whether a byte of these was put in."""
        return any(self.put[start:end])


def span(source, node):
    """The bytes of a part of the tree."""
    return source.tokens[node.first].place, source.tokens[node.last - 1].end


def nodes(source):
    """All parts of the tree, each before its own parts."""
    for root in syntax.roots(source.script):
        yield from syntax.walk(root)


def around(source, forms):
    """The innermost part of these forms that has the fault's token, or none."""
    found = None
    for node in nodes(source):
        if node.form in forms and node.first <= source.at < node.last:
            found = node
    return found


def blanked_statement(text, place):
    """The edit that blanks what looks like a statement around a place of a text that has no tree."""
    start = max(text.rfind(it, 0, place) for it in (b";", b"{", b"}")) + 1
    end = text.find(b";", place)
    return [(start, len(text) if end < 0 else end + 1, b"")]


def blanked_part(source):
    """The edits that blank the body, the header or the global around the fault; none where nothing is left."""
    for root in roots_of(source):
        if root.first <= source.at < root.last:
            return blanked_root(source, root)
    return blanked_line(source.text, source.place)


def roots_of(source):
    if source.script is None:
        return []
    handlers = [it for state in source.script.states for it in state.parts]
    return [*handlers, *source.script.functions, *source.script.globals]


def blanked_root(source, root):
    start, end = span(source, root)
    if root.form == "global":
        return [(start, end, b"")]
    body = span(source, root.parts[-1])
    return [(*body, b"{}")] if body[1] - body[0] > 2 else []


def blanked_line(text, place):
    start = text.rfind(b"\n", 0, place) + 1
    end = text.find(b"\n", place)
    end = len(text) if end < 0 else end
    return [(start, end, b"")] if text[start:end].strip() else []


def cut_of(text):
    """A text's tokens, for what is around a fault that no tree has."""
    return tokens.cut(text)
