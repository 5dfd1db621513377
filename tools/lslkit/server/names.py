"""The names of a piece of a script: what it declares, and what each name in it means. It goes by the tokens alone, so
that a script with faults has names too."""
from collections import namedtuple

from ..tokens import TYPES

ASSIGNS = ("=", "+=", "-=", "*=", "/=", "%=")
KINDS = (*TYPES, "float", "vector", "rotation", "quaternion")
# A declaration: its sort, its name, its kind, its token, and the tokens between which it is visible. A routine has
# parameters, as their declarations' numbers.
Declared = namedtuple("Declared", "sort name kind at start end params")
# A use of a name: its sort, its token, the number of its declaration in the piece or none, and whether it is written.
Use = namedtuple("Use", "sort name at declared is_written")


class Names:
    """What a piece declares and uses. `own` is the number of the declaration of the piece itself."""

    def __init__(self):
        self.declared, self.uses, self.own, self.body = [], [], None, None
        # The pairs of braces, as their tokens.
        self.blocks = []


class Reader:
    def __init__(self, tokens, sort):
        self.tokens, self.sort, self.names = tokens, sort, Names()
        self.scopes, self.blocks, self.labels, self.jumps = [{}], [], {}, []
        self.waiting = None

    def text(self, at):
        token = self.tokens[at] if 0 <= at < len(self.tokens) else None
        return token.text if token and token.sort in ("word", "sign") else ""

    def is_name(self, at):
        return at < len(self.tokens) and self.tokens[at].sort == "name"

    def declare(self, sort, at, kind, start, params=()):
        found = Declared(sort, self.tokens[at].text, kind, at, start, None, tuple(params))
        self.names.declared.append(found)
        return len(self.names.declared) - 1

    def end(self, number, at):
        self.names.declared[number] = self.names.declared[number]._replace(end=at)

    def use(self, sort, at, declared=None, is_written=False):
        self.names.uses.append(Use(sort, self.tokens[at].text, at, declared, is_written))

    # Heads

    def head(self):
        """The head of the piece; the token at which its body begins."""
        first, kind = 0, None
        if self.sort == "state":
            return self.state_head()
        if self.text(first) in KINDS and self.is_name(first + 1):
            kind, first = self.text(first), first + 1
        if not self.is_name(first):
            return 0
        if self.text(first + 1) != "(":
            if kind is None or self.sort == "handler":
                return 0
            self.names.own = self.declare("global", first, kind, first + 1)
            return first + 1
        params, at = self.params(first + 2)
        sort = "handler" if self.sort == "handler" else "function"
        self.names.own = self.declare(sort, first, kind, 0, params)
        return at

    def state_head(self):
        for at in range(len(self.tokens)):
            if self.text(at) == "default" or self.is_name(at) and self.text(at - 1) == "state":
                self.names.own = self.declare("state", at, None, 0)
        return len(self.tokens)

    def params(self, at):
        found = []
        while at < len(self.tokens) and self.text(at) not in (")", "{", "}", ";"):
            if self.text(at) in KINDS and self.is_name(at + 1):
                found.append(self.declare("parameter", at + 1, self.text(at), at + 1))
                self.scopes[0][self.tokens[at + 1].text] = found[-1]
                at += 1
            at += 1
        return found, at + (self.text(at) == ")")

    # Bodies

    def read(self):
        at = self.head()
        last = len(self.tokens) - 1
        while at < last:
            token = self.tokens[at]
            if token.sort == "name":
                self.name(at)
            elif token.sort == "sign":
                self.sign(token.text, at)
            at += 1
        while self.blocks:
            self.close(last)
        for number, it in enumerate(self.names.declared):
            if it.end is None:
                self.end(number, last)
        self.go_to_labels()
        return self.names

    def sign(self, text, at):
        if text == "{":
            self.names.body = at if self.names.body is None else self.names.body
            self.names.blocks.append((at, None))
            self.blocks.append(len(self.names.blocks) - 1)
            self.scopes.append({})
        elif text == "}" and self.blocks:
            self.close(at)
        elif text == ";":
            self.show()

    def show(self):
        """From here on a local variable is visible that was declared before."""
        if self.waiting is not None:
            self.scopes[-1][self.names.declared[self.waiting].name] = self.waiting
            self.waiting = None

    def close(self, at):
        number = self.blocks.pop()
        self.names.blocks[number] = (self.names.blocks[number][0], at)
        for declared in self.scopes.pop().values():
            self.end(declared, at)
        for (block, _), declared in self.labels.items():
            if block == number:
                self.end(declared, at)
        self.waiting = None

    def name(self, at):
        before, after = self.text(at - 1), self.text(at + 1)
        if before in KINDS and self.blocks and after != "(":
            self.show()
            self.waiting = self.declare("variable", at, before, self.end_of_declaration(at))
        elif before == "@":
            self.label(at)
        elif before == "jump":
            self.jumps.append((at, tuple(self.blocks)))
        elif before == "state":
            self.use("state", at)
        elif after == "(":
            self.use("call", at)
        else:
            is_stepped = after in ("++", "--") or before in ("++", "--") and not self.is_name(at - 2)
            self.use("variable", at, self.visible(self.tokens[at].text), is_stepped or after in ASSIGNS)

    def end_of_declaration(self, at):
        while at < len(self.tokens) - 1 and self.text(at) not in (";", "{", "}"):
            at += 1
        return at

    def visible(self, name):
        return next((names[name] for names in reversed(self.scopes) if name in names), None)

    def label(self, at):
        block = self.blocks[-1] if self.blocks else None
        start = self.names.blocks[block][0] if self.blocks else 0
        number = self.declare("label", at, None, start)
        self.labels.setdefault((block, self.tokens[at].text), number)

    def go_to_labels(self):
        for at, blocks in self.jumps:
            name = self.tokens[at].text
            goals = [self.labels[block, name] for block in reversed(blocks) if (block, name) in self.labels]
            self.use("label", at, goals[0] if goals else None)
        self.names.uses.sort(key=lambda it: it.at)


def read(tokens, sort):
    return Reader(tokens, sort).read()
