"""Random scripts, by the grammar and with any layout; and what is left of a text that was broken."""
import random

from . import tables

KINDS = ("integer", "string", "key", "list")
NAMES = ("a", "b", "count", "text", "_x", "i")
BINARY = "+ - * / % << >> < <= > >= == != & ^ | && ||".split()
ASSIGNS = "= += -= *= /= %=".split()
COMMENTS = ("/* x */", "/**/", "// x\n", "/* two\n   lines */", "// é \U0001f600\n")
BLANKS = (" ", " ", " ", "  ", "\t", "\n", "\n\n\n", "\r\n", "\n        ", "")
PIECES = ('"', "{", "}", "(", ")", "[", ";", "/*", "*/", "//", "1.5", "#", "\u00e9", "\U0001f600", "\ufeff", "state ",
          "default ", "jump ", "@", "float ", "<0, 0, 0>", "\r", "\0", "\\", "\n")  # fmt: skip


class Writer:
    """Writes a script as its tokens, with blanks and comments between them."""

    def __init__(self, seed):
        self.random, self.tokens = random.Random(seed), []

    def pick(self, *choices):
        return self.random.choice(choices)

    def often(self, share=0.5):
        return self.random.random() < share

    def add(self, *tokens):
        self.tokens += tokens

    def text(self):
        """The tokens with what keeps them apart."""
        made, last = [], ""
        for it in self.tokens:
            blank = self.random.choice(BLANKS) if self.often(0.8) else ""
            if self.often(0.06):
                blank += self.random.choice(COMMENTS)
            is_glued = last and (last[-1].isalnum() or last[-1] == "_") and (it[0].isalnum() or it[0] == "_")
            is_glued = is_glued or last[-1:] in tuple("+-=<>!&|/*%") and it[0] in "+-=<>!&|/*%"
            is_glued = is_glued and not blank or last == "/" and blank[:1] in ("/", "")
            made += [" " * is_glued, blank, it]
            last = it
        return "".join(made) + self.pick("", "\n", " \n\n")

    # Values

    def value(self, depth):
        choice = self.random.randrange(12) if depth > 0 else self.random.randrange(3)
        if choice == 0:
            self.add(self.pick("0", "1", "0x1F", "4294967295", "007"))
        elif choice == 1:
            self.add(self.pick('""', '"a b"', '"\\"q\\""', '"two\nlines"', '"é\U0001f600 // no"'))
        elif choice == 2:
            self.add(self.pick(*NAMES, "TRUE", "NULL_KEY"))
        elif choice in (3, 4):
            self.value(depth - 1)
            self.add(self.pick(*BINARY))
            self.value(depth - 1)
        elif choice == 5:
            self.add(self.pick("-", "!", "~"))
            self.value(depth - 1)
        elif choice == 6:
            self.add("(", self.pick(*KINDS), ")")
            self.value(depth - 1)
        elif choice == 7:
            self.add(*self.pick(("++", "a"), ("--", "b"), ("i", "++"), ("count", "--")))
        elif choice == 8:
            self.many("[", "]", depth - 1)
        elif choice == 9:
            self.add("(")
            self.value(depth - 1)
            self.add(")")
        else:
            self.add(self.pick(*list(tables.calls())[:8], "f", "g"))
            self.many("(", ")", depth - 1)

    def many(self, opening, closing, depth):
        self.add(opening)
        for number in range(self.random.randrange(4)):
            self.add(*([","] if number else []))
            self.value(depth)
        self.add(closing)

    # Statements

    def statement(self, depth):
        choice = self.random.randrange(11) if depth > 0 else self.random.randrange(4)
        if choice < 2:
            self.add(self.pick(*NAMES), self.pick(*ASSIGNS))
            self.ended()
        elif choice == 2:
            self.ended()
        elif choice == 3:
            self.add(*self.pick((";",), ("jump", "out", ";"), ("return", ";"), ("state", "default", ";")))
        elif choice == 4:
            self.block(depth - 1)
        elif choice in (5, 6):
            self.condition("if")
            self.statement(depth - 1)
            if self.often():
                self.add("else")
                self.statement(depth - 1)
        elif choice == 7:
            self.condition("while")
            self.statement(depth - 1)
        elif choice == 8:
            self.add("do")
            self.statement(depth - 1)
            self.condition("while")
            self.add(";")
        elif choice == 9:
            self.add("for", "(", "i", "=", "0", ";")
            self.value(1)
            self.add(";", "++", "i", ")")
            self.statement(depth - 1)
        else:
            self.ended()

    def ended(self):
        self.value(3)
        self.add(";")

    def condition(self, word):
        self.add(word, "(")
        self.value(2)
        self.add(")")

    def block(self, depth):
        self.add("{")
        for _ in range(self.random.randrange(5)):
            if self.often(0.2):
                self.add(self.pick(*KINDS), self.pick(*NAMES), "=")
                self.ended()
            elif self.often(0.1):
                self.add("@", "out", ";")
            else:
                self.statement(depth)
        self.add("}")

    def script(self):
        for _ in range(self.random.randrange(4)):
            self.add(self.pick(*KINDS), self.pick(*NAMES), *self.pick((), ("=", "-", "1"), ("=", "[", "1", "]")), ";")
        for name in ("f", "g")[: self.random.randrange(3)]:
            self.add(*self.pick((), ("integer",)), name, "(", *self.pick((), ("integer", "a", ",", "list", "l")), ")")
            self.block(3)
        for head in (["default"], ["state", "open"])[: self.random.randrange(1, 3)]:
            self.add(*head, "{")
            for name, params in (("state_entry", []), ("timer", []), ("touch_start", ["integer", "n"])):
                if self.often() or name == "timer":
                    self.add(name, "(", *params, ")")
                    self.block(3)
            self.add("}")
        return self.text()


def script(seed):
    return Writer(seed).script()


def broken(text, seed):
    """A text of which parts were cut, moved or put in."""
    chance = random.Random(seed)
    for _ in range(chance.randrange(1, 6)):
        first, last = sorted(chance.randrange(len(text) + 1) for _ in range(2))
        last = min(last, first + chance.choice((1, 3, 20, 200)))
        choice = chance.randrange(4)
        if choice == 0:
            text = text[:first] + text[last:]
        elif choice == 1:
            text = text[:first] + chance.choice(PIECES) + text[first:]
        elif choice == 2:
            text = text[:first] + text[first:last] * 2 + text[last:]
        elif chance.random() < 0.3:
            text = text[:first]
    return text
