"""All faults of a script in one pass: the program's first one, then, each time once the text is mended of those before,
the first one of the rest."""
from collections import namedtuple

from . import lacking, repairs, script_hints, tokens
from .mending import Mended, blanked_part, nodes, span

# A fault: its number, the bytes that it covers in the text as written, its hints, what it is gathered under and the
# name that is lacking (or none), further places, how it is mended (a title and edits, or none), and whether it is the
# program's first.
Finding = namedtuple("Finding", "fault start end hints group name more fix is_first")
MOST = 50
MOST_ROUNDS = 400
# The faults with which nothing more can be found.
LAST = (3, 6, 13, 14)
# The faults of a part of the tree, which may be due to what was put into it.
OF_PARTS = {22: (), 23: ("binary", "unary", "step", "assign"), 24: ("cast",), 25: ("call",), 26: (), 27: (), 31: ()}


class Search:
    """Finds the faults of a text, one after another."""

    def __init__(self, text, check):
        self.check, self.mended, self.found, self.seen, self.made_up = check, Mended(text), {}, {}, set()

    def run(self):
        at = self.check(self.mended.text)
        for _ in range(MOST_ROUNDS):
            if at is None or len(self.found) >= MOST:
                break
            at = self.mend(*at)
        return sorted(self.found.values(), key=lambda it: (it.start, it.fault))

    def mend(self, line, column, fault):
        """Takes a fault, and answers the one that comes next; none where it can't be mended."""
        source = script_hints.source_of(self.mended.text, line, column)
        self.note(fault, source)
        for choices in self.ways(fault, source):
            best = self.best(choices, self.mended.origin(source.place))
            if best:
                self.mended, following = best
                return following
        return None

    def ways(self, fault, source):
        """The choices of edits, and where they don't help the blanking of the part in which the fault is."""
        is_last = fault in LAST or (fault == 1 and b"\0" in source.text)
        if is_last:
            return
        place = fault, self.mended.origin(source.place)
        self.seen[place] = self.seen.get(place, 0) + 1
        if self.seen[place] <= 3:
            yield repairs.of(fault, source)
        yield [blanked_part(source)]

    def best(self, choices, place):
        """The mended text that lets the program go furthest, and its next fault; none where nothing changes."""
        tried = []
        for edits in choices:
            if not edits:
                continue
            mended = self.mended.copy()
            mended.apply(edits)
            found = self.check(mended.text)
            is_past = found is not None and found[2] not in OF_PARTS and self.rank(mended, found)[1] > place
            if found is None or (is_past and mended.text != self.mended.text):
                return mended, found
            tried.append((self.rank(mended, found), -len(tried), mended, found))
        tried = [it for it in tried if it[2].text != self.mended.text]
        return max(tried, key=lambda it: it[:2])[2:] if tried else None

    @staticmethod
    def rank(mended, found):
        """How far the program goes: by the phase that finds the fault, and by its place in the text as written."""
        line, column, fault = found
        place = tokens.Lines(mended.text).place_of(line, column)
        phase = 1 if fault < 10 else 2 if fault < 20 else 3 if fault in OF_PARTS else 4
        return phase, mended.origin(place)

    def note(self, fault, source):
        """Keeps a fault, unless it is due to what was put in; further ones of one sort with the first of them."""
        token = source.tokens[source.at]
        is_here = token.place == source.place and token.end > token.place
        start, last = source.place, token.end if is_here else source.place + 1
        if self.found and self.is_due_to_edits(fault, source, start, last):
            return
        begin, end = self.origins(start, min(last, len(source.text)))
        group, name = lacking.group_of(fault, source)
        key = (group, name) if group else (fault, token.text if fault == 20 else begin)
        if key in self.found:
            self.found[key].more.append((begin, end, lacking.written(source)))
            return
        hints = [] if fault == 6 else script_hints.hint(fault, source)
        more = self.uses(source, token) if fault == 20 else [(begin, end, lacking.written(source))]
        fix = self.fix_of(fault, source)
        self.found[key] = Finding(fault, begin, end, hints, group, name, more, fix, not self.found)

    def origins(self, start, end):
        begin = self.mended.origin(start)
        return begin, max(begin, self.mended.origin(end))

    def uses(self, source, token):
        """Where a name that isn't known is used, from its first use on."""
        self.made_up.add(token.text)
        same = [it for it in source.tokens[source.at :] if it.sort == "name" and it.text == token.text]
        return [(*self.origins(it.place, it.end), None) for it in same]

    def is_due_to_edits(self, fault, source, start, end):
        if self.mended.is_put(start, end):
            return True
        if fault not in OF_PARTS or source.script is None:
            return False
        forms = OF_PARTS[fault]
        parts = [it for it in nodes(source) if it.first == source.at or (forms and it.at == source.at)]
        parts = [it for it in parts if not forms or it.form in forms] or parts
        return any(self.mended.is_put(*span(source, it)) or self.is_made_up(source, it) for it in parts[:1])

    def is_made_up(self, source, part):
        """Whether a part names what isn't known, whose kind was guessed."""
        return any(it.text in self.made_up for it in source.tokens[part.first : part.last])

    def fix_of(self, fault, source):
        """The title and the edits that mend a fault in the text as written, where there is one way to do it."""
        title = lacking.fix_title(fault, source)
        choices = repairs.of(fault, source) if title else []
        if len(choices) != 1:
            return None
        edits = [(self.mended.origin(start), self.mended.origin(end), new) for start, end, new in choices[0]]
        return title, edits


def of(text, check):
    """The faults in the order of their places."""
    return Search(text, check).run()


def single(text, line, column, fault):
    """The program's first fault alone."""
    search = Search(text, lambda _: None)
    search.note(fault, script_hints.source_of(text, line, column))
    return next(iter(search.found.values()))
