"""What helps to mend a script's first fault of names and kinds: signatures, kinds, nearest names. A function for each
fault."""
from . import kinds, syntax, tables

SORTS = {
    "global": "variable",
    "function": "function",
    "state": "state",
    "parameter": "parameter",
    "declare": "variable",
}
WRITTEN_CASTS = (
    ("integer", "string"),
    ("list", "string"),
    ("string", "integer"),
    ("integer", "list"),
    ("string", "list"),
    ("key", "list"),
)
CASTS = {
    "integer": "a string or an integer",
    "string": "any kind",
    "key": "a string or a key",
    "list": "any kind",
}


def word_at(source):
    return source.tokens[source.at].text


def unknown_name(source):
    name = word_at(source)
    sort = tables.known_to_lsl().get(name)
    if sort and not tables.is_here(name):
        yield f"LSL has the {sort} {name}, and this language hasn't"
        return
    own = own_names(source)
    if name in tables.events():
        yield f"{name} is an event, and isn't called"
        return
    if name in tables.calls() or name in own:
        line = source.lines.line_of(source.tokens[own[name].at].place) if name in own else 0
        sort = SORTS[own[name].form] if name in own else "call"
        hidden = f"the {sort} of line {line} isn't visible here, or no {sort} may be here"
        yield hidden if line else f"{name} is a call"
        return
    near = tables.nearest(name, {*own, *tables.calls(), *tables.constants()})
    is_called = source.tokens[source.at + 1].text == "("
    missing = "write the function" if is_called else "declare it"
    yield f"do you mean {near}?" if near else f"{missing} before the first state, or leave {name} out"


def own_names(source):
    """The names that the script declares, with their nodes."""
    nodes = [it for root in syntax.roots(source.script) for it in syntax.walk(root)]
    states = [it for it in nodes if it.form == "state" and it.parts]
    return {it.text: it for it in [*states, *nodes] if it.form in SORTS and it.form != "state" or it in states}


def taken_name(source):
    name = word_at(source)
    for state in source.script.states:
        same = [it for it in state.parts if it.text == name]
        if source.at in [it.at for it in same[1:]]:
            yield f"line {source.lines.line_of(source.tokens[same[0].at].place)} has a handler of {name} already"
            return
    for sort, table in (("call", tables.calls()), ("event", tables.events()), ("constant", tables.constants())):
        if name in table:
            yield f"it is the name of a built-in {sort}"
            return
    for root in syntax.roots(source.script):
        for node in syntax.walk(root):
            is_earlier = node.text == name and node.at < source.at
            if is_earlier and node.form in ("global", "function", "state", "handler", "parameter", "declare", "label"):
                line = source.lines.line_of(source.tokens[node.at].place)
                yield f"line {line} has {name} already"
                return


def wrong_kind(source):
    for it in kinds.conversions(source.script):
        if it.value.first == source.at and not kinds.becomes(it.found, it.wanted):
            wanted = it.wanted or "none, since the function gives nothing"
            said = f"{it.where} is to be {with_article(wanted)}"
            yield f"{said}, and this is {with_article(it.found)}" if it.found else None
            can_cast = (it.found, it.wanted) in WRITTEN_CASTS
            cast = f"write ({it.wanted}) before it" if can_cast else None
            yield "perhaps the arguments are in another order" if it.is_swapped else cast
            return
    yield from wrong_part(source)


def wrong_part(source):
    """Of a list in a list, and of a `return` with a value where none may be, or the other way round."""
    found = []

    def report(node, scope, routine):
        if node.form == "list" and any(it.first == source.at and scope.kind_of(it) == "list" for it in node.parts):
            found.append("a list holds no lists: join them with +")
        if node.form == "return" and node.first == source.at:
            kind = routine.kind
            found.append(f"{routine.text} gives {with_article(kind)}" if kind else f"{routine.text} gives nothing")

    kinds.visit(source.script, report)
    yield found[0] if found else None


def with_article(kind):
    return f"an {kind}" if kind == "integer" else f"a {kind}" if kind in tables.KINDS.values() else kind


def wrong_operands(source):
    """Both kinds, at the operator's place."""
    found = []

    def report(node, scope, _):
        is_operator = node.form in ("binary", "unary", "step", "assign") and node.at == source.at
        if is_operator:
            found.append([scope.kind_of(it) or "nothing" for it in node.parts])

    kinds.visit(source.script, report)
    for operands in found[:1]:
        kind, *other = map(with_article, operands)
        yield f"its left side is {kind} and its right one {other[0]}" if other else f"it is before {kind}"
        if word_at(source) in ("+", "+=") and "string" in operands[:2]:
            yield f"write (string) before the {'right' if operands[0] == 'string' else 'left'} one"


def no_cast(source):
    kind = source.tokens[source.at + 1].text
    yield f"a cast to {kind} takes {CASTS[kind]}" if kind in CASTS else None


def call_at(source):
    """What is called at the fault's place, and the kinds of the arguments."""
    found = []

    def report(node, scope, _):
        if node.form == "call" and node.at == source.at:
            found.append((scope.call(node.text), [scope.kind_of(it) for it in node.parts]))

    kinds.visit(source.script, report)
    return found[0] if found else (None, [])


def wrong_count(source):
    row, given = call_at(source)
    if row:
        count = len(given)
        yield f"{tables.signature(row)} takes {len(row.params)}, and here {'is' if count == 1 else 'are'} {count}"
        fitting = [kinds.becomes(*pair) for pair in zip(given, row.params)]
        place = fitting.index(False) if False in fitting else min(count, len(row.params))
        if count + 1 == len(row.params):
            yield f"argument {place + 1}, {with_article(row.params[place])}, is missing"
        elif count == len(row.params) + 1:
            yield f"argument {place + 1} is one too many"


def no_result(source):
    row, _ = call_at(source)
    yield f"{tables.signature(row)} gives no value" if row else None


def no_variable(source):
    """Why a name can't be assigned or stepped."""
    name = word_at(source)
    if name in tables.constants():
        yield f"{name} is a constant"
        return
    found = []

    def report(node, scope, _):
        if node.form == "step" and source.at in (node.at, node.first, node.parts[0].first):
            found.append(scope.kind_of_name(name))

    kinds.visit(source.script, report)
    yield f"{name} is {with_article(found[0])}" if found and found[0] else None


def no_constant(_):
    yield "a global's value is a number, a text, a list of these, a constant or an earlier global"


def state_in_function(_):
    yield "only a handler changes the state: let the function return a number, and test it in the handler"


def unknown_label(source):
    labels = {it.text for root in syntax.roots(source.script) for it in syntax.walk(root) if it.form == "label"}
    name = word_at(source)
    near = tables.nearest(name, labels)
    yield f"`@{name};` is in no block around" if name in labels else f"do you mean {near}?" if near else None


def wrong_event(source):
    name = word_at(source)
    event = tables.events().get(name)
    if event:
        yield f"its form is {tables.signature(event)}"
        return
    if tables.known_to_lsl().get(name) == "event":
        yield f"LSL has the event {name}, and this language hasn't"
        return
    near = tables.nearest(name, tables.events())
    known = f"do you mean {tables.signature(tables.events()[near])}?" if near else None
    yield known or "a state has handlers of events: " + ", ".join(tables.events())
