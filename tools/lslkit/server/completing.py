"""Completion, with snippets, and the signature of the call around the cursor."""
import re

from .. import tables
from ..tokens import TYPES
from . import phrases

FUNCTION, VARIABLE, CLASS, KEYWORD, CONSTANT, EVENT, TYPE, LABEL = 3, 6, 7, 14, 21, 23, 25, 18
PLAIN, SNIPPET = 1, 2
# What begins a statement, with the places to fill in.
STATEMENTS = {
    "if": "if (${1:condition}) {\n\t$0\n}",
    "else": "else {\n\t$0\n}",
    "while": "while (${1:condition}) {\n\t$0\n}",
    "do": "do {\n\t$0\n} while (${1:condition});",
    "for": "for (${1:i} = 0; ${1:i} < ${2:count}; ++${1:i}) {\n\t$0\n}",
    "jump": "jump ${1:label};",
    "return": "return$0;",
    "state": "state ${1:name};",
}
STATE = "state ${1:name} {\n\tstate_entry() {\n\t\t$0\n\t}\n}"
DEFAULT = "default {\n\tstate_entry() {\n\t\t$0\n\t}\n}"
OUTSIDE = {"default": DEFAULT, "state": STATE}


class Completer:
    """Finds what fits at a place of a script."""

    def __init__(self, document, place, has_snippets):
        self.document, self.script, self.place = document, document.script, place
        self.has_snippets = has_snippets
        self.number, self.at = self.script.before(place)
        self.piece = self.script.pieces[self.number] if self.script.pieces else None
        if self.at and self.ends_here(self.at - 1):
            # The word that is being written.
            self.at -= 1

    def ends_here(self, at):
        token = self.piece.tokens[at]
        return token.sort in ("name", "word") and self.script.starts[self.number] + token.end == self.place

    def before(self, back=1):
        """The text of a token before the cursor."""
        at = self.at - back
        return self.piece.tokens[at].text if self.piece and 0 <= at < len(self.piece.tokens) else ""

    def is_in_text(self):
        """Whether the cursor is in a string or a comment."""
        if self.piece is None:
            return False
        start = self.script.starts[self.number]
        tokens, rel = self.piece.tokens, self.place - start
        inside = [it for it in tokens if it.place < rel < it.end]
        if inside and inside[0].sort in ("string", "fault"):
            return True
        last = max([it.end for it in tokens if it.end <= rel and it.sort != "end"], default=0)
        gap = self.piece.text[last:rel]
        rest = re.sub(rb"//[^\n]*\n|/\*.*?\*/", b"", gap, flags=re.S)
        return b"//" in rest or b"/*" in rest

    def items(self):
        if self.is_in_text():
            return []
        last = self.before()
        if last == "jump":
            return self.labels()
        if last == "state" and self.is_in_body():
            return [self.item(name, CLASS, "state") for name in self.script.own["state"]]
        if last == "@" or last in TYPES and self.before(2) != "(":
            return []
        if self.is_in_body():
            return [*self.variables(), *self.functions(), *self.of_language(), *self.statements()]
        if self.is_in_state():
            return self.events()
        if last == "(" or last == ",":
            return self.types()
        if self.is_in_initial():
            return [*self.constants(), *self.globals_before()]
        return [*self.types(), *(self.item(it, KEYWORD, "", body) for it, body in OUTSIDE.items())]

    # Where the cursor is

    def is_in_body(self):
        body = self.piece.names.body if self.piece else None
        if body is None or self.at <= body or self.piece.sort == "global":
            return False
        return any(start < self.at and (end is None or self.at <= end) for start, end in self.piece.names.blocks)

    def is_in_state(self):
        """Whether a handler may begin here."""
        if self.piece is None:
            return False
        state = self.script.state_of(self.number)
        if self.piece.sort == "state":
            return self.at > 0 and self.before() == "{"
        return state is not None and self.closed_before(state)

    def closed_before(self, state):
        between = self.script.pieces[state + 1 : self.number]
        is_closed = any(it.sort == "close" for it in between)
        return not is_closed and self.at == 0 and self.piece.sort in ("handler", "close", "rest")

    def is_in_initial(self):
        texts = [it.text for it in self.piece.tokens[: self.at]] if self.piece else []
        return "=" in texts and self.piece.sort in ("global", "rest") and ";" not in texts

    # What fits

    def item(self, name, kind, detail, snippet=None, does=""):
        made = {"label": name, "kind": kind}
        if detail:
            made["detail"] = detail
        if does:
            made["documentation"] = {"kind": "markdown", "value": does}
        if snippet and self.has_snippets:
            made.update(insertText=snippet, insertTextFormat=SNIPPET)
        return made

    def labels(self):
        found = {it.name: it for it in self.piece.names.declared if it.sort == "label"} if self.piece else {}
        return [self.item(name, LABEL, "label") for name, it in found.items() if it.start < self.at <= it.end]

    def types(self):
        return [self.item(it, TYPE, "", does=phrases.KINDS[it]) for it in TYPES]

    def variables(self):
        visible = self.script.visible(self.number, self.at)
        own = {name: self.script.row("global", name) for name in self.script.own["global"]}
        return [self.item(name, VARIABLE, it.kind) for name, it in {**own, **visible}.items()]

    def globals_before(self):
        own = self.script.own["global"]
        return [self.item(it, VARIABLE, self.script.row("global", it).kind) for it in own if own[it] < self.number]

    def functions(self):
        for name in self.script.own["function"]:
            declared, params = self.script.row("function", name), self.script.function_params(name)
            signature = phrases.own_signature(declared, params)
            yield self.item(name, FUNCTION, signature, self.call(name, [it.name for it in params]))

    def call(self, name, params):
        """A call with places for its arguments, unless its parenthesis is there already."""
        if self.script.text[self.place : self.place + 1] == b"(":
            return None
        places = ", ".join(f"${{{number}:{it}}}" for number, it in enumerate(params, 1))
        return f"{name}({places})$0"

    def constants(self):
        for name in tables.constants():
            yield self.item(name, CONSTANT, phrases.signature("constant", name), does=phrases.does("constant", name))

    def of_language(self):
        for name in (it for it in tables.calls() if it not in self.script.own["function"]):
            snippet = self.call(name, phrases.entry_of("call", name).get("params", []))
            yield self.item(name, FUNCTION, phrases.signature("call", name), snippet, phrases.does("call", name))
        yield from self.constants()

    def statements(self):
        yield from self.types()
        for name, snippet in STATEMENTS.items():
            yield self.item(name, KEYWORD, "", snippet, phrases.STATEMENTS.get(name, ""))

    def events(self):
        """The events of which the state has no handler."""
        state = self.script.state_of(self.number)
        handled = set()
        for it in self.script.pieces[(state or 0) + 1 :]:
            if it.sort != "handler":
                break
            declared = self.script.declared_by(it)
            is_written = it is self.piece and self.at == 0
            handled |= {declared.name} if declared and not is_written else set()
        for name in tables.events():
            if name not in handled:
                head = f"{name}({', '.join(phrases.params_of('event', name))})"
                yield self.item(name, EVENT, head, head + " {\n\t$0\n}", phrases.does("event", name))


def complete(document, params, has_snippets):
    completer = Completer(document, document.lines.place(params["position"]), has_snippets)
    return {"isIncomplete": False, "items": list(completer.items())}


# Signature help


def call_around(script, place):
    """The name of the call whose arguments are at a place, and the number of the argument; nothing where none is."""
    number, at = script.before(place)
    tokens = script.pieces[number].tokens if script.pieces else []
    closed = commas = 0
    for it in range(at - 1, -1, -1):
        sign = tokens[it].text if tokens[it].sort == "sign" else ""
        if sign in (")", "]"):
            closed += 1
        elif sign in ("(", "[") and closed:
            closed -= 1
        elif sign == "[":
            commas = 0
        elif sign == "(":
            if it and tokens[it - 1].sort == "name":
                return tokens[it - 1].text, commas
            commas = 0
        elif sign == "," and not closed:
            commas += 1
        elif sign in (";", "{", "}"):
            return None
    return None


def form_of(script, name):
    """A name's signature, its parameters and what it does; nothing for a name that isn't called."""
    declared = script.row("function", name)
    if declared:
        params = script.function_params(name)
        return phrases.own_signature(declared, params), phrases.own_params(params), ""
    for sort, table in (("call", tables.calls()), ("event", tables.events())):
        if name in table:
            return phrases.signature(sort, name), phrases.params_of(sort, name), phrases.does(sort, name)
    return None


def signature(document, params):
    found = call_around(document.script, document.lines.place(params["position"]))
    form = form_of(document.script, found[0]) if found else None
    if not form:
        return None
    label, names, does = form
    labels, start = [], label.find("(") + 1
    for it in names:
        labels.append({"label": [start, start + len(it)]})
        start += len(it) + 2
    made = {"label": label, "parameters": labels}
    if does:
        made["documentation"] = {"kind": "markdown", "value": does}
    return {"signatures": [made], "activeSignature": 0, "activeParameter": found[1]}
