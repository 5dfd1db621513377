"""Signatures and descriptions of names, from the tables of the language and the words that tools share."""
from .. import tables, words

# For each sort of names of the language their table, and that of their words.
TABLES = {
    "call": (tables.calls, "calls"),
    "event": (tables.events, "events"),
    "constant": (tables.constants, "constants"),
}
KINDS = {
    "integer": "A whole number of 32 bits. It is charged 8.",
    "string": "A text. It is charged 16 and its bytes in UTF-8.",
    "key": "A text that names a prim, a person or a query. It is charged 16 and its bytes.",
    "list": "Integers, strings and keys in order. It is charged 16, and for each element 8 and the element's charge.",
}
STATEMENTS = {
    "jump": "`jump NAME;` continues after the label `@NAME;` of the nearest block around that has it.",
    "state": "`state NAME;` ends the handler and changes to another state: `state_exit`, and then its `state_entry`.",
    "default": "The state in which a script starts.",
    "return": "Ends the handler or function; a function with a kind returns a value.",
    "for": "`for (starts; condition; steps) statement`. The condition isn't optional.",
    "while": "`while (condition) statement`",
    "do": "`do statement while (condition);`",
    "if": "`if (condition) statement else statement`",
    "else": "`if (condition) statement else statement`",
}


def row_of(sort, name):
    return TABLES[sort][0]()[name]


def entry_of(sort, name):
    """The words for a name of the language."""
    return words.table(TABLES[sort][1]).get(name, {})


def does(sort, name):
    return entry_of(sort, name).get("does", "")


def params_of(sort, name):
    """The parameters of a call or an event, each as its kind and name."""
    row = row_of(sort, name)
    names = entry_of(sort, name).get("params", [])
    return [f"{kind} {it}" for kind, it in zip(row.params, names)] if names else list(row.params)


def signature(sort, name):
    row = row_of(sort, name)
    if sort == "constant":
        return f"{row.kind} {name} = {row.value}"
    result = getattr(row, "result", None)
    return (f"{result} " if result else "") + f"{name}({', '.join(params_of(sort, name))})"


def own_params(params):
    return [f"{it.kind} {it.name}" for it in params]


def own_signature(declared, params):
    kind = f"{declared.kind} " if declared.kind else ""
    return f"{kind}{declared.name}({', '.join(own_params(params))})"


def code(text):
    return f"```lsl\n{text}\n```"
