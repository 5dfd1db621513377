"""A script as the features see it: its pieces, and what each name in it means in the whole of it."""
import functools
from bisect import bisect_right
from collections import namedtuple

from .. import tables
from . import pieces

# What a name means: `local` with the numbers of its piece and declaration; `global`, `function` or `state` of the
# script; `call`, `constant` or `event` of the language; or `unknown`.
Meaning = namedtuple("Meaning", "sort name piece declared")
# A place at which a name is, in bytes of the whole text.
Place = namedtuple("Place", "start end is_declaration is_written")
# A token of the script: its piece, its number there, and its bytes in the whole text.
Spot = namedtuple("Spot", "piece at token start end")
OWN = ("global", "function", "state")
WORDS = ("name", "word", "integer", "string")


class Script:
    def __init__(self, text, earlier=None):
        self.text = text
        self.placed, self.known = pieces.read(text, earlier.known if earlier else {})
        self.starts = [it for it, _ in self.placed]
        self.pieces = [it for _, it in self.placed]

    @functools.cached_property
    def own(self):
        """For each sort of own names the piece that declares a name first."""
        found = {sort: {} for sort in OWN}
        for number, piece in enumerate(self.pieces):
            declared = self.declared_by(piece)
            if declared and declared.sort in found:
                found[declared.sort].setdefault(declared.name, number)
        return found

    @functools.cached_property
    def own_names(self):
        """The own names of each sort."""
        return tuple(tuple(self.own[it]) for it in OWN)

    @staticmethod
    def declared_by(piece):
        """What a piece itself is."""
        return None if piece.names.own is None else piece.names.declared[piece.names.own]

    def row(self, sort, name):
        """The declaration of a global, function or state; nothing where there is none."""
        number = self.own[sort].get(name)
        return None if number is None else self.declared_by(self.pieces[number])

    def params_of(self, piece, declared):
        return [piece.names.declared[it] for it in declared.params]

    def function_params(self, name):
        """The parameters of a function of the script."""
        piece = self.pieces[self.own["function"][name]]
        return self.params_of(piece, self.declared_by(piece))

    # Tokens and places

    def piece_at(self, place):
        return max(0, bisect_right(self.starts, place) - 1)

    def spot(self, place):
        """The token at a byte, or the word that ends there; nothing between tokens."""
        number = self.piece_at(place)
        found = self.spot_in(number, place)
        if found is None and number and place == self.starts[number]:
            return self.spot_in(number - 1, place)
        return found

    def spot_in(self, number, place):
        if number >= len(self.pieces):
            return None
        tokens, rel = self.pieces[number].tokens, place - self.starts[number]
        last = bisect_right([it.place for it in tokens], rel) - 1
        touching = [at for at in (last, last - 1) if at >= 0 and rel <= tokens[at].end and tokens[at].sort != "end"]
        # A word counts up to its end, also where a sign follows it directly.
        words = [at for at in touching if tokens[at].sort in WORDS]
        found = words or [at for at in touching if rel < tokens[at].end]
        return self.spot_of(number, found[0]) if found else None

    def spot_of(self, number, at):
        token = self.pieces[number].tokens[at]
        return Spot(number, at, token, self.starts[number] + token.place, self.starts[number] + token.end)

    def before(self, place):
        """The piece at a byte, and the number of its tokens that end before or at it."""
        number = self.piece_at(place)
        tokens = self.pieces[number].tokens if self.pieces else []
        rel = place - self.starts[number] if self.pieces else 0
        return number, sum(it.end <= rel and it.sort != "end" for it in tokens)

    # Meanings

    def meaning_of(self, number, use):
        """What a use of a name in a piece means."""
        if use.declared is not None:
            return Meaning("local", use.name, number, use.declared)
        if use.sort == "state":
            return Meaning("state" if use.name in self.own["state"] else "unknown", use.name, None, None)
        if use.sort == "label":
            return Meaning("unknown", use.name, None, None)
        own, table = ("function", tables.calls()) if use.sort == "call" else ("global", tables.constants())
        here = "call" if use.sort == "call" else "constant"
        sort = own if use.name in self.own[own] else here if use.name in table else "unknown"
        return Meaning(sort, use.name, None, None)

    def meaning_of_declared(self, number, declared, at):
        if declared.sort == "handler":
            return Meaning("event" if declared.name in tables.events() else "unknown", declared.name, None, None)
        if declared.sort in OWN:
            return Meaning(declared.sort, declared.name, None, None)
        return Meaning("local", declared.name, number, at)

    def meaning(self, spot):
        """What the name at a token means; nothing where the token is no name."""
        names = self.pieces[spot.piece].names
        for at, it in enumerate(names.declared):
            if it.at == spot.at:
                return self.meaning_of_declared(spot.piece, it, at)
        for it in names.uses:
            if it.at == spot.at:
                return self.meaning_of(spot.piece, it)
        if spot.token.text == "default":
            return Meaning("state", "default", None, None) if "default" in self.own["state"] else None
        return None

    def declared(self, meaning):
        """The declaration that a meaning has in the script, with its piece; nothing for names of the language."""
        if meaning.sort == "local":
            return meaning.piece, self.pieces[meaning.piece].names.declared[meaning.declared]
        if meaning.sort in OWN and meaning.name in self.own[meaning.sort]:
            number = self.own[meaning.sort][meaning.name]
            return number, self.declared_by(self.pieces[number])
        return None

    def places(self, meaning):
        """All places of a meaning, in the order of the text."""
        numbers = [meaning.piece] if meaning.sort == "local" else range(len(self.pieces))
        found = []
        for number in numbers:
            piece = self.pieces[number]
            if meaning.name.encode() not in piece.text:
                continue
            for at, it in enumerate(piece.names.declared):
                if it.name == meaning.name and self.meaning_of_declared(number, it, at) == meaning:
                    found.append(self.place_of(number, it.at, True, False))
            for it in piece.names.uses:
                if it.name == meaning.name and self.meaning_of(number, it) == meaning:
                    found.append(self.place_of(number, it.at, False, it.is_written))
            if meaning == Meaning("state", "default", None, None):
                found += self.changes_to_default(number)
        return sorted(set(found))

    def changes_to_default(self, number):
        tokens = self.pieces[number].tokens
        pairs = zip(tokens, range(1, len(tokens)))
        return [
            self.place_of(number, at, False, False)
            for before, at in pairs
            if tokens[at].sort == "word" and tokens[at].text == "default" and before.text == "state"
        ]

    def place_of(self, number, at, is_declaration, is_written):
        token, start = self.pieces[number].tokens[at], self.starts[number]
        return Place(start + token.place, start + token.end, is_declaration, is_written)

    def visible(self, number, at):
        """The local variables and parameters that are visible before a token of a piece, the nearest last."""
        found = {}
        for it in self.pieces[number].names.declared:
            if it.sort in ("variable", "parameter") and it.start < at <= it.end:
                found.pop(it.name, None)
                found[it.name] = it
        return found

    def state_of(self, number):
        """The number of the piece with the head of the state around a piece."""
        while number >= 0 and self.pieces[number].sort in ("handler", "close", "rest"):
            number -= 1
        return number if number >= 0 and self.pieces[number].sort == "state" else None

    def states(self):
        """Each state: the number of its head's piece, and those of the pieces up to its end."""
        for number, piece in enumerate(self.pieces):
            if piece.sort == "state" and piece.names.own is not None:
                last = number
                while last + 1 < len(self.pieces) and self.pieces[last + 1].sort in ("handler", "close"):
                    last += 1
                    if self.pieces[last].sort == "close":
                        break
                yield number, range(number + 1, last + 1)
