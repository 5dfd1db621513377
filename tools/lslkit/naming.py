"""Which declaration each name of a script means, and which declarations are never meant."""
from collections import namedtuple

from . import kinds

# A declaration: its part of the tree, its sort in words, and how many names mean it. `hides` is the declaration that
# has the same name around it, or none.
Declared = namedtuple("Declared", "node sort uses hides routine")
SORTS = {"global": "global", "parameter": "parameter", "declare": "variable"}


class Names:
    """Follows a script's names through its blocks."""

    def __init__(self, script):
        self.script, self.found, self.called, self.jumped = script, [], set(), []
        self.globals = {it.text: self.declare(it, None, None) for it in script.globals}
        for it in script.globals:
            for part in it.parts:
                self.visit(part, [self.globals], None)
        for routine in kinds.bodies(script):
            params = {}
            for it in routine.parts[:-1]:
                params[it.text] = self.declare(it, self.globals.get(it.text), routine)
            self.visit(routine.parts[-1], [self.globals, params], routine)

    def declare(self, node, hides, routine):
        self.found.append(Declared(node, SORTS[node.form], [], hides, routine))
        return self.found[-1]

    def visit(self, node, scopes, routine):
        if node.form == "name":
            self.use(node, scopes)
        elif node.form == "call":
            self.called.add((node.text, routine.text if routine and routine.form == "function" else None))
        inner = [*scopes, {}] if node.form == "block" else scopes
        for part in node.parts:
            self.visit(part, inner, routine)
        if node.form == "declare":
            hides = self.meant(node.text, scopes)
            scopes[-1][node.text] = self.declare(node, hides, routine)

    def use(self, node, scopes):
        meant = self.meant(node.text, scopes)
        if meant:
            meant.uses.append(node)

    @staticmethod
    def meant(name, scopes):
        return next((it[name] for it in reversed(scopes) if name in it), None)

    def unused(self):
        """The variables and the parameters of functions that no name means."""
        is_forced = [it.sort == "parameter" and it.routine.form == "handler" for it in self.found]
        return [it for it, forced in zip(self.found, is_forced) if not it.uses and not forced]

    def uncalled(self):
        """The functions that nothing calls but they themselves."""
        called = {name for name, by in self.called if name != by}
        return [it for it in self.script.functions if it.text not in called]
