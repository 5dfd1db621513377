"""What a script has that other languages have and LSL hasn't: words, signs and forms, what to write in their place, and
how a text with them is mended. The words are in tools/words/habits.json."""
import re

from . import mending, words
from .tokens import TYPES

DEFINE = re.compile(rb"#[ \t]*define[ \t]+(\w+)[ \t]+(-?[0-9]+|0x[0-9A-Fa-f]+|\"[^\"\n]*\")[ \t\r]*(?://[^\n]*)?\Z")
QUOTED = re.compile(rb"'([^'\n]*)'")
DIRECTIVES = ("include", "import")
SQUARED = ("|", "&", "^", "<<", ">>")


def said(form, *parts):
    return words.filled(words.table("habits")["forms"][form], {str(at): it for at, it in enumerate(parts)})


def of(fault, source):
    """What to write, and the edits that mend it; nothing where it is no habit that is known. The edits may be none."""
    rule = RULES.get(fault)
    return rule(source) if rule else None


# Lexical faults


def character(source):
    sign = source.text[source.place : source.place + 1]
    rule = CHARACTERS.get(sign)
    if rule:
        return rule(source)
    letter = source.text[source.place :].decode(errors="replace")[:1]
    if letter.isalpha():
        return said("letter"), [(source.place, source.place + len(letter.encode()), b"_")]
    return None


def directive(source):
    """A line of a preprocessor."""
    start, end = source.place, line_end(source.text, source.place)
    line = source.text[start:end]
    found = DEFINE.match(line)
    if found:
        name, value = found[1].decode(), found[2].decode()
        kind = "string" if value.startswith('"') else "integer"
        declared = f"{kind} {name} = {value};"
        return said("define", declared), [(start, end, declared.encode())]
    word = re.match(rb"#[ \t]*(\w*)", line)[1].decode()
    while source.text[start:end].rstrip().endswith(b"\\"):
        end = line_end(source.text, end + 1)
    form = "include" if word in DIRECTIVES else "macro" if word == "define" else "directive"
    return said(form), [(start, end, b"")]


def line_end(text, place):
    end = text.find(b"\n", place)
    return len(text) if end < 0 else end


def single_quote(source):
    found = QUOTED.match(source.text, source.place)
    if not found:
        return said("quote", '"text"'), [(source.place, source.place + 1, b" ")]
    text = found[1].replace(b'"', b'\\"')
    return said("quote", f'"{text.decode(errors="replace")}"'), [(*found.span(), b'"' + text + b'"')]


def point(source):
    """A point that begins no number: of a vector's part, or of another language's call."""
    before = source.tokens[source.at - 1].text if source.at else ""
    found = re.match(rb"\.(\w*)(\s*\()?", source.text[source.place :])
    end = source.place + 1 + len(found[1])
    if found[1] in (b"x", b"y", b"z", b"s") and not found[2]:
        return said("component"), [(source.place, end, b"")]
    if before.startswith('"') or not found[1]:
        return said("join"), [(source.place, source.place + 1, b"+")]
    return said("method"), mending.blanked_statement(source.text, source.place)


def question(source):
    return said("ternary"), mending.blanked_statement(source.text, source.place)


def colon(source):
    """A `:`, of a switch or of a label."""
    found = None
    for found in re.finditer(rb"\bswitch\s*\(", source.text[: source.place]):
        pass
    if found:
        return words.table("habits")["words"]["switch"], blanked_block(source.text, found.start())
    return said("colon"), [(source.place, source.place + 1, b" ")]


def blanked_block(text, start):
    """The edit that blanks all from a place to the end of the first block after it."""
    at, depth = text.find(b"{", start), 0
    while 0 <= at < len(text):
        depth += {b"{": 1, b"}": -1}.get(text[at : at + 1], 0)
        at += 1
        if depth == 0:
            return [(start, at, b";")]
    return [(start, len(text), b"")]


CHARACTERS = {b"#": directive, b"'": single_quote, b".": point, b"?": question, b":": colon}


# Unexpected tokens


def unexpected(source):
    texts = [it.text for it in source.tokens]
    for rule in (two_signs, declared_in_for, word_before, lone_else, listed, indexed, body, headers, word_at):
        found = rule(source, source.at, texts)
        if found:
            return found
    return None


def two_signs(source, at, texts):
    """Signs that are one in another language."""
    known = words.table("habits")["signs"]
    both = texts[at - 1] + texts[at] if at else ""
    is_joined = at and source.tokens[at - 1].end == source.tokens[at].place
    if not is_joined or both not in known:
        return None
    start, end = source.tokens[at - 1].place, source.tokens[at].end
    new = re.findall("`([^`]*)`", known[both])[-1] if "LSL" not in known[both] else texts[at - 1]
    return known[both], [(start, end, new.encode())]


def declared_in_for(source, at, texts):
    if texts[at] not in (*TYPES, "float") or texts[at - 2 : at] != ["for", "("]:
        return None
    kind, name = source.tokens[at], source.tokens[at + 1]
    start = source.tokens[at - 2].place if texts[at - 3] in ("{", "}", ";") else 0
    declared = f"{kind.text} {name.text}; ".encode()
    return said("for", name.text), [(start, start, declared), (kind.place, name.place, b"")]


def word_before(source, at, texts):
    """A word before the fault that another language has."""
    table = words.table("habits")
    word = texts[at - 1] if at else ""
    token = source.tokens[at - 1]
    if token.sort != "name":
        return statement_word(source, at, texts)
    if word in table["types"] and source.tokens[at].sort in ("name", "word"):
        new = {"integer": b"integer", "string": b"string", "list": b"list", "key": b"key"}
        kind = next((new[it] for it in new if f"write {it}" in table["types"][word]), b"")
        return table["types"][word], [(token.place, token.end, kind)]
    if word in table["words"]:
        return table["words"][word], [(token.place, token.end, b"")] if word == "then" else None
    return statement_word(source, at, texts)


def statement_word(source, at, texts):
    """`switch (..) {`, `elseif (..) {` and the like, which are read as calls up to the `{`."""
    table = words.table("habits")["words"]
    if texts[at] != "{" or texts[at - 1] != ")":
        return None
    depth, place = 0, at - 1
    while place > 0:
        depth += {")": 1, "(": -1}.get(texts[place], 0)
        if depth == 0:
            break
        place -= 1
    word = source.tokens[place - 1]
    if word.text not in table:
        return None
    if word.text in ("elseif", "elif", "elsif"):
        return table[word.text], [(word.place, word.end, b"else if")]
    return table[word.text], blanked_block(source.text, word.place)


def lone_else(source, at, texts):
    token = source.tokens[at]
    return (said("else"), [(token.place, token.end, b"")]) if texts[at] == "else" else None


def listed(source, at, texts):
    """`integer a, b;`"""
    if texts[at] != "," or source.tokens[at - 1].sort != "name" or texts[at - 2] not in TYPES:
        return None
    token, kind = source.tokens[at], texts[at - 2]
    return said("several", kind, texts[at - 1], texts[at + 1]), [(token.place, token.end, f"; {kind} ".encode())]


def indexed(source, at, texts):
    if texts[at] != "[" or source.tokens[at - 1].sort != "name":
        return None
    end = texts.index("]", at) if "]" in texts[at:] else at
    return said("index"), [(source.tokens[at - 1].place, source.tokens[end].end, b'""')]


def body(source, at, texts):
    """A declaration as the body of an `if` or a loop."""
    if texts[at] not in TYPES or texts[at - 1] not in (")", "else"):
        return None
    end = source.text.find(b";", source.place) + 1
    return said("body"), [(source.place, source.place, b"{"), (end, end, b"}")] if end else None


def headers(source, at, texts):
    """What is outside of bodies: a global's value, a state without a handler, a statement in a state."""
    depth = texts[:at].count("{") - texts[:at].count("}")
    begun = max((place for place in range(at) if texts[place] in (";", "}", "{")), default=-1) + 1
    if depth == 0 and begun < at - 1 and texts[begun] in TYPES and "=" in texts[begun:at]:
        value, end = texts.index("=", begun) + 1, source.text.find(b";", source.place)
        zero = mending.VALUES[texts[begun]] if texts[begun] != "key" else b'""'
        return said("global"), [(source.tokens[value].place, end, zero)] if end > 0 else None
    if texts[at] == "}" and texts[at - 1] == "{" and depth == 1:
        return said("empty"), [(source.place, source.place, b"timer() { } ")]
    is_outside = depth == 1 and source.tokens[begun].sort == "name" and texts[begun + 1] in ("(", "=")
    if is_outside and source.tokens[at].sort not in ("name", "end") and texts[at] not in ("{", ")", ","):
        end = source.text.find(b";", source.place) + 1
        return said("outside"), [(source.tokens[begun].place, end, b"")] if end else None
    return None


def word_at(source, at, texts):
    table = words.table("habits")["words"]
    token = source.tokens[at]
    if texts[at] not in table or token.sort != "name":
        return None
    new = {"and": b"&&", "or": b"||"}.get(texts[at])
    return table[texts[at]], [(token.place, token.end, new)] if new else None


def name(source):
    """A name that isn't known, since another language has it."""
    token = source.tokens[source.at]
    hint = words.table("habits")["words"].get(token.text)
    if not hint:
        return None
    return hint, [(token.place, token.end, b"")] if token.text in ("break", "continue") else None


RULES = {5: character, 10: unexpected, 20: name}
