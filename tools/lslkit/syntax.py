"""A script as a tree, by the grammar of docs/LANGUAGE.md; or its first unexpected token, and what could be there.

It serves the tools' hints and probes. What is accepted the program alone says."""
import sys
from collections import namedtuple

from .tokens import TYPES

# A part of a script: its form, its name, word or operator, its parts, its first token and the one after it, and the
# token at which its faults are. A name's `kind` is the one that is written before it.
Node = namedtuple("Node", "form text parts first last at kind")
Script = namedtuple("Script", "globals functions states tokens")

# The operators of each level, the loosest first.
LEVELS = [it.split() for it in ("&& ||", "|", "^", "&", "== !=", "< <= > >=", "<< >>", "+ -", "* / %")]
ASSIGNS = ("=", "+=", "-=", "*=", "/=", "%=")


class Unexpected(Exception):
    """The place in the list of tokens at which no script continues, and what could be there."""

    def __init__(self, at, wanted):
        super().__init__(at, wanted)
        self.at, self.wanted = at, wanted


class Reader:
    def __init__(self, tokens):
        self.tokens, self.at, self.wanted = tokens, 0, []

    def text(self, ahead=0):
        """The text of a word or sign that comes, or nothing."""
        token = self.tokens[min(self.at + ahead, len(self.tokens) - 1)]
        return token.text if token.sort in ("word", "sign") else ""

    def sort(self, ahead=0):
        return self.tokens[min(self.at + ahead, len(self.tokens) - 1)].sort

    def take(self):
        self.at += 1
        self.wanted = []
        return self.tokens[self.at - 1].text

    def fail(self):
        raise Unexpected(self.at, self.wanted)

    def sees(self, *texts, said=None):
        """Whether one of these comes. If not, they are kept as what could have come."""
        if self.text() in texts:
            return True
        self.wanted += [said] if said else [f"`{it}`" for it in texts]
        return False

    def need(self, *texts, said=None):
        return self.take() if self.sees(*texts, said=said) else self.fail()

    def need_name(self):
        if self.sort() != "name":
            self.wanted.append("a name")
            self.fail()
        return self.take()

    def node(self, form, text, parts, first, at=None, kind=None):
        return Node(form, text, tuple(parts), first, self.at, first if at is None else at, kind)

    # Headers

    def script(self):
        globals_, functions, states = [], [], []
        while not self.sees("default", said="`default`"):
            first, kind = self.at, self.take() if self.sees(*TYPES, said="a type") else None
            at, name = self.at, self.need_name()
            if self.sees("(") or kind is None:
                functions.append(self.routine("function", name, first, at, kind))
            else:
                globals_.append(self.rest_of_declaration("global", name, first, at, kind))
        states.append(self.state())
        while self.sort() != "end":
            if not self.sees("state"):
                self.fail()
            states.append(self.state())
        return Script(globals_, functions, states, self.tokens)

    def state(self):
        first = self.at
        name = self.take() if self.text() == "default" else self.take() and self.need_name()
        at = self.at - 1
        self.need("{")
        handlers = []
        while not handlers or not self.sees("}"):
            start = self.at
            if self.sort() != "name":
                self.wanted.append("an event")
                self.fail()
            handlers.append(self.routine("handler", self.take(), start, start, None))
        self.take()
        return self.node("state", name, handlers, first, at)

    def routine(self, form, name, first, at, kind):
        self.need("(")
        params = []
        while not self.sees(")") or params:
            start, param = self.at, self.need(*TYPES, said="a type")
            place = self.at
            params.append(self.node("parameter", self.need_name(), (), start, place, param))
            if not self.sees(","):
                break
            self.take()
        self.need(")")
        body = self.block()
        return self.node(form, name, [*params, body], first, at, kind)

    def rest_of_declaration(self, form, name, first, at, kind):
        value = ()
        if self.sees("="):
            self.take()
            value = (self.initial() if form == "global" else self.value(),)
        self.need(";")
        return self.node(form, name, value, first, at, kind)

    def initial(self):
        """A global's value, which is no expression."""
        first = self.at
        if self.text() != "[":
            return self.atom()
        self.take()
        parts = []
        while parts or not self.sees("]"):
            parts.append(self.atom())
            if not self.sees(","):
                break
            self.take()
        self.need("]")
        return self.node("list", "", parts, first)

    def atom(self):
        first, sort = self.at, self.sort()
        if self.text() == "-":
            self.take()
            if self.sort() != "integer":
                self.wanted.append("a number")
                self.fail()
            return self.node("unary", "-", [self.atom()], first)
        if sort not in ("integer", "string", "name"):
            self.wanted.append("a number, a text or a constant")
            self.fail()
        return self.node("name" if sort == "name" else "literal", self.take(), (), first, kind=sort)

    # Statements

    def block(self):
        first = self.at
        self.need("{")
        entries = []
        while not self.sees("}"):
            entries.append(self.entry())
        self.take()
        return self.node("block", "", entries, first)

    def entry(self):
        first = self.at
        if self.sees(*TYPES, said="a statement"):
            kind = self.take()
            at = self.at
            return self.rest_of_declaration("declare", self.need_name(), first, at, kind)
        if self.text() == "@":
            self.take()
            name = self.need_name()
            self.need(";")
            return self.node("label", name, (), first, self.at - 2)
        return self.statement()

    def statement(self):
        first, word = self.at, self.text()
        form = getattr(self, f"{word}_statement", None) if word.isalpha() else None
        if word == "{":
            return self.block()
        if form:
            self.take()
            return form(first)
        parts = () if word == ";" else (self.value(),)
        self.need(";")
        return self.node("value" if parts else "empty", "", parts, first)

    def condition(self):
        self.need("(")
        value = self.value()
        self.need(")")
        return value

    def if_statement(self, first):
        parts = [self.condition(), self.statement()]
        if self.sees("else"):
            self.take()
            parts.append(self.statement())
        return self.node("if", "", parts, first)

    def while_statement(self, first):
        return self.node("while", "", [self.condition(), self.statement()], first)

    def do_statement(self, first):
        body = self.statement()
        self.need("while")
        condition = self.condition()
        self.need(";")
        return self.node("do", "", [body, condition], first)

    def for_statement(self, first):
        self.need("(")
        starts = self.values(";")
        self.need(";")
        condition = self.value()
        self.need(";")
        steps = self.values(")")
        self.need(")")
        return self.node("for", "", [*starts, condition, *steps, self.statement()], first)

    def jump_statement(self, first):
        return self.named("jump", first, self.need_name())

    def state_statement(self, first):
        return self.named("state", first, self.take() if self.sees("default") else self.need_name())

    def named(self, form, first, name):
        self.need(";")
        return self.node(form, name, (), first, self.at - 2)

    def return_statement(self, first):
        parts = () if self.sees(";") else (self.value(),)
        self.need(";")
        return self.node("return", "", parts, first)

    # Values

    def values(self, end):
        """Values with commas between them, up to this sign."""
        found = []
        while not self.sees(end) or found:
            found.append(self.value())
            if not self.sees(","):
                break
            self.take()
        return found

    def value(self):
        first = self.at
        if self.sort() == "name" and self.text(1) in ASSIGNS:
            target = self.operand()
            at, sign = self.at, self.take()
            return self.node("assign", sign, [target, self.value()], first, at)
        return self.level(0)

    def level(self, number):
        if number == len(LEVELS):
            return self.operand()
        first, value = self.at, self.level(number + 1)
        while self.text() in LEVELS[number]:
            at, sign = self.at, self.take()
            value = self.node("binary", sign, [value, self.level(number + 1)], first, at)
        if "an operator" not in self.wanted:
            self.wanted.append("an operator")
        return value

    def operand(self):
        first, sort, text = self.at, self.sort(), self.text()
        if sort in ("integer", "string"):
            return self.node("literal", self.take(), (), first, kind=sort)
        if sort == "name":
            return self.named_operand(first)
        if text in ("-", "!", "~"):
            self.take()
            return self.node("unary", text, [self.operand()], first)
        if text in ("++", "--"):
            self.take()
            name = self.node("name", self.need_name(), (), first + 1)
            return self.node("step", text, [name], first, first + 1)
        if text == "[":
            self.take()
            parts = self.values("]")
            self.need("]")
            return self.node("list", "", parts, first)
        if text == "(":
            return self.in_parentheses(first)
        self.wanted.append("a value")
        return self.fail()

    def named_operand(self, first):
        name = self.take()
        if self.text() == "(":
            self.take()
            parts = self.values(")")
            self.need(")")
            return self.node("call", name, parts, first)
        value = self.node("name", name, (), first)
        if self.text() in ("++", "--"):
            value = self.node("step", self.take(), [value], first)
        return value

    def in_parentheses(self, first):
        self.take()
        if self.text() in TYPES:
            kind = self.take()
            self.need(")")
            return self.node("cast", kind, [self.operand()], first)
        value = self.value()
        self.need(")")
        return self.node("group", "", [value], first)


def read(tokens):
    """The script of these tokens. 200 constructs in one another are read by some 2,500 calls in one another."""
    sys.setrecursionlimit(20000)
    return Reader(tokens).script()


def walk(node):
    """A node and all that are in it, each before its parts."""
    yield node
    for part in node.parts:
        yield from walk(part)


def roots(script):
    """The globals, functions and states of a script, in no order of the text."""
    return [*script.globals, *script.functions, *script.states]
