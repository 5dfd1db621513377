"""A script's layout: the blanks between its tokens and comments, and nothing else. Its lines end where their author
ended them; a line's indentation and the blanks within it follow the nesting and the signs."""
import re
from collections import namedtuple

from . import tokens

COMMENT = re.compile(rb"//[^\n]*|/\*.*?\*/", re.S)
OPENING, CLOSING = {"(": ")", "[": "]", "{": "}"}, (")", "]", "}")
NONE_BEFORE, NONE_AFTER = (")", "]", ",", ";"), ("(", "[")
HEADS = ("if", "while", "for")
# A token or a comment: its first byte, the one after its last, and a token's number.
Element = namedtuple("Element", "start end at")
# A gap: its first byte, the one after its last, and the blanks that it should hold.
Edit = namedtuple("Edit", "start end text")


class Unformatted(Exception):
    """Why a text keeps its layout."""


class Frame:
    """A bracket that is open: its sign, the level of its line, and the line. In a brace the heads (`if`, `else`, ..)
    whose bodies have not ended."""

    def __init__(self, sign, level, line):
        self.sign, self.level, self.line, self.heads = sign, level, line, []
        self.is_of_head = False


class Layout:
    """Goes over the tokens, and says of each its level at the start of a line and whether it is a prefix or a cast."""

    def __init__(self, cut, lines):
        self.tokens, self.lines = cut, lines
        self.texts = [it.text if it.sort in ("word", "sign") else "" for it in cut]
        self.frames = [Frame("{", -1, -1)]
        # The frames of open braces alone.
        self.braces = self.frames[:]
        self.levels, self.tight = [], set()
        self.casts, self.postfix = set(), set()
        self.is_start, self.waits_for_while = True, False
        # The parenthesis that comes if it is that of a head, and the level of the statement.
        self.head, self.statement = None, 0
        for at, text in enumerate(self.texts[:-1]):
            if text == "{":
                self.open_brace(at)
            elif text == "}":
                self.close_brace(self.texts[at + 1])
            else:
                self.in_statement(at, text)
        if len(self.frames) > 1:
            raise Unformatted(f"a `{self.frames[-1].sign}` isn't closed")
        self.levels.append(0)

    def level_here(self):
        """The level of a statement that begins here."""
        brace = self.braces[-1]
        return brace.level + 1 + (len(brace.heads) - brace.heads.count("else if") if brace.heads else 0)

    def open_brace(self, at):
        if self.frames[-1].sign != "{":
            raise Unformatted("a `{` comes within parentheses or brackets")
        is_body = bool(self.braces[-1].heads) and self.is_start
        level = self.level_here() - is_body
        self.levels.append(level)
        self.braces.append(Frame("{", level, self.lines[at]))
        self.frames.append(self.braces[-1])
        self.is_start, self.head = True, None

    def close_brace(self, following):
        if self.frames[-1].sign != "{" or len(self.frames) == 1:
            raise Unformatted("a `}` closes nothing")
        self.braces.pop()
        self.levels.append(self.frames.pop().level)
        self.end_of_statement(following)

    def in_statement(self, at, text):
        is_in_brace = self.frames[-1].sign == "{"
        is_start = self.is_start and is_in_brace
        if is_start:
            self.statement = self.level_here()
            self.levels.append(self.statement)
        else:
            self.levels.append(self.continued(text) if self.lines[at] > self.lines[at - 1] else 0)
        self.is_start = False
        if not text:
            return
        self.mark(at, text, is_start)
        if text in OPENING:
            self.frames.append(Frame(text, self.statement, self.lines[at]))
            self.frames[-1].is_of_head, self.head = self.head == "(", None
        elif text in CLOSING:
            self.close(text)
        elif text == ";" and is_in_brace:
            self.end_of_statement(self.texts[at + 1])
        elif is_start:
            self.word(at, text)

    def word(self, at, text):
        """A statement's first word."""
        if text == "while" and self.waits_for_while:
            self.waits_for_while = False
        elif text in HEADS:
            self.braces[-1].heads.append(text)
            self.head = "("
        elif text in ("do", "else"):
            is_if = text == "else" and self.texts[at + 1] == "if" and self.lines[at] == self.lines[at + 1]
            self.braces[-1].heads.append("else if" if is_if else text)
            self.is_start = True

    def close(self, text):
        if OPENING.get(self.frames[-1].sign) != text or len(self.frames) == 1:
            raise Unformatted(f"a `{text}` closes nothing")
        frame = self.frames.pop()
        self.is_start = frame.is_of_head

    def continued(self, text):
        """The level of a line that begins within a statement."""
        brackets = []
        for it in reversed(self.frames):
            if it.sign == "{":
                break
            brackets.append(it.line)
        if text in CLOSING and brackets:
            return self.statement + len(set(brackets) - {brackets[0]})
        return self.statement + max(1, len(set(brackets)))

    def end_of_statement(self, following):
        """Ends the statement, and those whose body it is, but for one that continues with an `else` or a `while`."""
        heads = self.braces[-1].heads
        self.is_start = True
        while heads:
            head = heads.pop()
            if head == "do":
                self.waits_for_while = following == "while"
                return
            if head == "if" and following == "else":
                return

    # Signs

    def ends_operand(self, at):
        """Whether an operand ends with a token."""
        if at < 0 or at in self.casts:
            return False
        return not self.texts[at] or self.texts[at] in (")", "]") or at in self.postfix

    def mark(self, at, text, is_start):
        """Marks what is followed by no blank, what follows its operand without one, and the ends of casts."""
        if text in ("++", "--") and at and self.tokens[at - 1].sort == "name":
            self.postfix.add(at)
        elif text in ("++", "--", "!", "~", "@") or text == "-" and (is_start or not self.ends_operand(at - 1)):
            self.tight.add(at)
        elif text == ")" and self.texts[at - 1] in tokens.TYPES and self.texts[at - 2] == "(":
            self.casts.add(at)
            self.tight.add(at)


def elements_of(text, cut):
    """The tokens and comments of a text, in its order."""
    found, last = [], 0
    for at, token in enumerate(cut):
        if token.place - last > 1 and b"/" in text[last : token.place]:
            found += [Element(it.start(), it.end(), None) for it in COMMENT.finditer(text, last, token.place)]
        found.append(Element(token.place, token.end, at))
        last = token.end
    return found


def blanks(layout, before, at):
    """The blanks between two tokens of one line, by their numbers."""
    first, second = layout.texts[before], layout.texts[at]
    if second in NONE_BEFORE or at in layout.postfix or first in NONE_AFTER or first == "{" and second == "}":
        return b""
    if before in layout.tight:
        return b" " if first[-1:] == "-" and second[:1] == "-" else b""
    return b"" if second == "(" and layout.tokens[before].sort == "name" else b" "


def beside_comment(kept, layout, before, element):
    """The blanks between a comment and what is beside it on one line."""
    if element.at is None:
        is_opened = before.at is not None and layout.texts[before.at] in NONE_AFTER
        return kept if kept and not kept.strip(b" ") else b"" if is_opened else b" "
    return b"" if layout.texts[element.at] in NONE_BEFORE else b" "


def level_of(layout, element, following):
    """The level of a line that begins with an element; a comment's is that of the line that it is about."""
    if element.at is not None:
        return layout.levels[element.at]
    return layout.levels[following] + (layout.texts[following] in CLOSING)


def gap(layout, held, before, element, following):
    """The blanks for those before an element, with its level where it begins a line. `following` is the number of the
    token that it is, or that follows it."""
    if element.at == len(layout.texts) - 1:
        return b"\n", 0
    feeds = held.count(b"\n")
    if feeds == 0:
        if before.at is None or element.at is None:
            return beside_comment(held, layout, before, element), 0
        return blanks(layout, before.at, element.at), 0
    is_close = before.at is not None and layout.texts[before.at] == "{"
    is_close = is_close or element.at is not None and layout.texts[element.at] == "}"
    return b"\n" * min(feeds, 1 if is_close else 2), level_of(layout, element, following)


def read(text):
    """A text's tokens and comments, and its layout. Fails with Unformatted."""
    cut = tokens.cut(text)
    if cut[-1].place != len(text):
        raise Unformatted("it has a fault among its tokens")
    lines = tokens.Lines(text)
    return elements_of(text, cut), Layout(cut, [lines.line_of(it.place) for it in cut])


def edits(text, unit=b"    "):
    """The edits that lay a text out, each of blanks between two tokens or comments. Fails with Unformatted."""
    elements, layout = read(text)
    feed = b"\r\n" if text.count(b"\r\n") * 2 > text.count(b"\n") else b"\n"
    found = list(changed(text, layout, elements, (unit, feed)))
    if found:
        need_same(text, elements, applied(text, found))
    return found


def followers(elements):
    """For each element the number of the token that it is, or that follows it."""
    following, numbers = 0, []
    for it in reversed(elements):
        following = it.at if it.at is not None else following
        numbers.append(following)
    return reversed(numbers)


def changed(text, layout, elements, how):
    """The gaps that hold other blanks than they should."""
    unit, feed = how
    before, end = Element(0, 0, None), 0
    for number, (element, following) in enumerate(zip(elements, followers(elements))):
        held = text[end : element.start]
        feeds, level = gap(layout, held, before, element, following) if number else (b"", 0)
        wanted = feeds.replace(b"\n", feed) + unit * level
        if held != wanted:
            yield Edit(end, element.start, wanted)
        before, end = element, element.end
        if element.at is None:
            end = element.start + len(text[element.start : end].rstrip())


def applied(text, changes):
    """The text with edits made."""
    made, last = [], 0
    for it in changes:
        made += [text[last : it.start], it.text]
        last = it.end
    return b"".join([*made, text[last:]])


def contents(text, elements):
    """The tokens and comments of a text, as they are written."""
    return [text[it.start : it.end].rstrip() for it in elements]


def formatted(text, unit=b"    "):
    """The text in its layout, with the same tokens and comments. Fails with Unformatted."""
    return applied(text, edits(text, unit))


def need_same(text, elements, made):
    if contents(made, elements_of(made, tokens.cut(made))) != contents(text, elements):
        raise Unformatted("its layout would change what it says, which is a fault of the formatter")
