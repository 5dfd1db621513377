"""Rename, where each name means the same afterwards as before."""
import re

from .. import syntax, tables, tokens
from .errors import Refused
from .finding import meaning_at
from .positions import to_bytes
from .scripts import Script

NAMED = {"call": "a call", "constant": "a constant", "event": "an event"}


def prepare(document, params):
    spot, meaning = meaning_at(document, params)
    if not spot or not meaning:
        return None
    need_own(meaning)
    return {"range": document.lines.range(spot.start, spot.end), "placeholder": spot.token.text}


def need_own(meaning):
    if meaning.sort in NAMED:
        raise Refused(f"{meaning.name} is {NAMED[meaning.sort]} of the language, and keeps its name")
    if meaning.sort == "unknown":
        raise Refused(f"the script declares no {meaning.name}")
    if meaning == ("state", "default", None, None):
        raise Refused("the state default keeps its name")


def need_name(meaning, declared, new):
    """Whether the new name may be one of this sort at all."""
    if not re.fullmatch(r"[A-Za-z_]\w*", new, re.A):
        raise Refused(f"'{new}' is no name: a letter or _, then letters, digits and _")
    if new in tokens.WORDS:
        raise Refused(f"{new} is a word of the language")
    if declared.sort in ("state", "label"):
        return
    for sort, table in (("call", tables.calls()), ("constant", tables.constants()), ("event", tables.events())):
        if new in table:
            raise Refused(f"{new} is {NAMED[sort]} of the language")


def rename(document, params):
    _, meaning = meaning_at(document, params)
    if not meaning:
        raise Refused("there is no name here")
    need_own(meaning)
    script, new = document.script, params["newName"]
    _, declared = script.declared(meaning)
    need_name(meaning, declared, new)
    places = script.places(meaning)
    try:
        syntax.read(tokens.cut_through(document.text))
    except (syntax.Unexpected, RecursionError):
        raise Refused("mend the script's syntax first: until then it isn't sure what each name means") from None
    if new != meaning.name:
        need_same_meanings(script, places, new)
    edits = [{"range": document.lines.range(it.start, it.end), "newText": new} for it in places]
    return {"changes": {document.uri: edits}}


def need_same_meanings(script, places, new):
    """Whether all names of the script mean afterwards what they mean now."""
    text, last = b"", 0
    for it in places:
        text += script.text[last : it.start] + to_bytes(new)
        last = it.end
    renamed = Script(text + script.text[last:])
    if taken(renamed) != taken(script):
        raise Refused(f"{new} is taken there already")
    if bindings(renamed) != bindings(script):
        raise Refused(f"{new} would mean something else in one of these places")


def bindings(script):
    """For each name of a script the token that declares what it means, in the order of the text."""
    found, first = [], []
    for piece in script.pieces:
        first.append((first[-1] + len(before.tokens)) if first else 0)
        before = piece
    for number, piece in enumerate(script.pieces):
        for use in piece.names.uses:
            meaning = script.meaning_of(number, use)
            declared = script.declared(meaning)
            goal = first[declared[0]] + declared[1].at if declared else f"{meaning.sort} {meaning.name}"
            found.append((first[number] + use.at, goal))
    return found


def taken(script):
    """How many declarations of a scope have a name that another one of it has."""
    globals_ = [script.declared_by(it) for it in script.pieces if it.sort in ("global", "function", "rest")]
    states = [script.declared_by(it) for it in script.pieces if it.sort == "state"]
    count = twice([it.name for it in globals_ if it]) + twice([it.name for it in states if it])
    for piece in script.pieces:
        inner = [it for at, it in enumerate(piece.names.declared) if at != piece.names.own]
        count += twice([(it.sort == "label", it.name, block_of(piece, it)) for it in inner])
    return count


def block_of(piece, declared):
    """The block directly around a declaration."""
    around = [it for it in piece.names.blocks if it[0] < declared.at and (it[1] is None or declared.at < it[1])]
    return around[-1] if around else None


def twice(names):
    return len(names) - len(set(names))
