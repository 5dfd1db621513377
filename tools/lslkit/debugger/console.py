"""The terminal's face for an editor: its lines are taken as texts."""
from .breakpoints import Wrong
from .face import TIERS
from .terminal import Terminal


class Console(Terminal):
    def __init__(self, session):
        super().__init__(session, False)
        self.lines = []

    def say(self, *lines):
        self.lines.extend(lines)

    def said_by(self, text):
        """What a command says."""
        self.lines = []
        if not self.do(text):
            raise Wrong("\n".join(self.lines))
        return "\n".join(self.lines)

    def notes(self):
        """What isn't known of the scripts."""
        units = self.session.trace.units.values()
        return [f"{it.file}: {TIERS[it.tier]}" for it in units if it.tier]

    def fault_line(self):
        return next(iter(self.fault_lines(self.session.fault())))
