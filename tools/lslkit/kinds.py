"""The kinds of values in a script, and the places at which a value has to be of another kind."""
from collections import namedtuple

from . import tables
from .syntax import walk

# A value that has to become a kind: the value, that kind, its own one, where it is in words, and whether it is an
# argument that would fit in another order.
Conversion = namedtuple("Conversion", "value wanted found where is_swapped")
TEXTS = ("string", "key")


class Scope:
    """The variables that are visible in a body, each with its kind."""

    def __init__(self, script):
        self.script = script
        self.globals = {it.text: it.kind for it in script.globals}
        self.functions = {it.text: it for it in script.functions}
        self.stack = []

    def kind_of_name(self, name):
        for names in reversed(self.stack):
            if name in names:
                return names[name]
        if name in self.globals:
            return self.globals[name]
        constant = tables.constants().get(name)
        return constant.kind if constant else None

    def call(self, name):
        """What a name calls, as its result and the kinds of its parameters; none where nothing has it."""
        own = self.functions.get(name)
        if own:
            return tables.Call(name, "Script", tuple(it.kind for it in own.parts[:-1]), own.kind)
        return tables.calls().get(name)

    def kind_of(self, value):
        """A value's kind, or none where it has none or isn't known."""
        form, parts = value.form, value.parts
        if form == "literal":
            return value.kind
        if form in ("name", "step"):
            return self.kind_of_name(value.text if form == "name" else parts[0].text)
        if form in ("group", "assign"):
            return self.kind_of(parts[0])
        if form in ("cast", "list"):
            return value.text or "list"
        if form == "unary":
            return "integer"
        if form == "call":
            row = self.call(value.text)
            return row.result if row else None
        return self.kind_of_sum(*map(self.kind_of, parts)) if value.text == "+" else "integer"

    @staticmethod
    def kind_of_sum(left, right):
        if "list" in (left, right):
            return "list"
        return left if left == right and left in ("integer", "string") else None


def bodies(script):
    """Each function and handler."""
    for function in script.functions:
        yield function
    for state in script.states:
        yield from state.parts


def visit(script, report):
    """Calls `report` with each part of the script and the scope in which it is, outer parts first."""
    scope = Scope(script)
    for it in script.globals:
        for part in walk(it):
            report(part, scope, it)
    for routine in bodies(script):
        scope.stack = [{it.text: it.kind for it in routine.parts[:-1]}]
        visit_part(routine.parts[-1], scope, report, routine)


def visit_part(node, scope, report, routine):
    report(node, scope, routine)
    if node.form == "block":
        scope.stack.append({})
    for part in node.parts:
        visit_part(part, scope, report, routine)
    if node.form == "block":
        scope.stack.pop()
    if node.form == "declare":
        scope.stack[-1][node.text] = node.kind


def conversions(script):
    """Each value that is stored, passed or returned, with the kind that it has to be of."""
    found = []

    def add(value, wanted, where, scope, is_swapped=False):
        found.append(Conversion(value, wanted, scope.kind_of(value), where, is_swapped))

    def report(node, scope, routine):
        if node.form in ("declare", "global") and node.parts:
            add(node.parts[0], node.kind, f"the value of {node.text}", scope)
        if node.form == "assign" and node.text == "=":
            add(node.parts[1], scope.kind_of(node.parts[0]), f"the value of {node.parts[0].text}", scope)
        if node.form == "return" and node.parts:
            add(node.parts[0], routine.kind, f"the result of {routine.text}", scope)
        row = scope.call(node.text) if node.form == "call" else None
        given = [scope.kind_of(it) or "" for it in node.parts]
        is_swapped = row is not None and sorted(given) == sorted(row.params)
        for number, (value, wanted) in enumerate(zip(node.parts, row.params if row else ()), 1):
            add(value, wanted, f"argument {number} of {tables.signature(row)}", scope, is_swapped)

    visit(script, report)
    return found


def becomes(found, wanted):
    """Whether a value of the one kind becomes the other without a written cast."""
    return found == wanted or (found in TEXTS and wanted in TEXTS)
