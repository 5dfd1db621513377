"""Positions: the protocol counts lines from 0 and units of UTF-16, a text here counts bytes of UTF-8. Nothing else
converts one into the other."""
import re
from bisect import bisect_right

HOW = ("utf-8", "surrogatepass")


def to_bytes(text):
    """A text of the protocol as bytes; half a pair of surrogates stays what it is."""
    return text.encode(*HOW)


def to_text(piece):
    """Bytes of a script as text; one that isn't UTF-8 becomes a sign that says so."""
    try:
        return piece.decode(*HOW)
    except UnicodeDecodeError:
        return piece.decode("utf-8", "replace")


def units(piece):
    """How many units of UTF-16 these bytes are."""
    if piece.isascii():
        return len(piece)
    return len(to_text(piece).encode("utf-16-le", "surrogatepass")) // 2


def bytes_in(line, count):
    """How many bytes a count of UTF-16 units of a line takes. A place within a character is its start."""
    if line.isascii():
        return min(count, len(line))
    taken = 0
    for character in to_text(line):
        width = 2 if ord(character) > 0xFFFF else 1
        if count < width:
            break
        count, taken = count - width, taken + len(to_bytes(character))
    return taken


class Lines:
    """The lines of a text's bytes, as the protocol counts them: each ends at a line feed."""

    def __init__(self, text):
        self.text = text
        self.starts = [0] + [it.end() for it in re.finditer(rb"\n", text)]

    def line_of(self, place):
        return bisect_right(self.starts, place) - 1

    def line(self, number):
        """A line's bytes, without its end."""
        end = self.starts[number + 1] - 1 if number + 1 < len(self.starts) else len(self.text)
        return self.text[self.starts[number] : end].rstrip(b"\r")

    def position(self, place):
        """The position of a byte."""
        number = self.line_of(place)
        return {"line": number, "character": units(self.text[self.starts[number] : place])}

    def range(self, start, end):
        return {"start": self.position(start), "end": self.position(end)}

    def place(self, position):
        """The byte at a position. Outside of the text it is the nearest one."""
        number, character = position["line"], position["character"]
        if number >= len(self.starts):
            return len(self.text)
        return self.starts[number] + bytes_in(self.line(number), max(0, character)) if number >= 0 else 0
