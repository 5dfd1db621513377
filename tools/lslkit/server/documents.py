"""The documents that a client has open, as it has them and not as they are in their files."""
import functools
import os
from urllib.parse import quote, unquote, urlsplit

from .. import worlds
from .positions import Lines, to_bytes, to_text
from .scripts import Script


def path_of(uri):
    """The path of a document; nothing where it isn't in a file."""
    parts = urlsplit(uri)
    return unquote(parts.path) if parts.scheme == "file" else None


def uri_of(path):
    return "file://" + quote(os.path.abspath(path))


class Document:
    def __init__(self, uri, language, version, text, earlier=None):
        self.uri, self.language, self.version, self.text = uri, language, version, text
        self.earlier = earlier

    @functools.cached_property
    def lines(self):
        return Lines(self.text)

    @functools.cached_property
    def script(self):
        """It as a script, with what the script before it is still good for."""
        made = Script(self.text, self.earlier)
        self.earlier = None
        return made

    @functools.cached_property
    def world(self):
        return worlds.read(to_text(self.text))

    @property
    def is_world(self):
        if self.language == "lsl-world" or self.uri.endswith(".world"):
            return True
        return self.language != "lsl" and not self.uri.endswith(".lsl") and worlds.is_world(to_text(self.text))

    @property
    def path(self):
        return path_of(self.uri)

    @property
    def name(self):
        return os.path.basename(self.path or self.uri) or "script.lsl"

    def changed(self, version, changes):
        """The document after changes: each is a range with its new text, or a whole text."""
        text, script = self.text, self.__dict__.get("script", self.earlier)
        for it in changes:
            new = to_bytes(it["text"])
            if "range" in it and it["range"] is not None:
                lines = self.lines if text is self.text else Lines(text)
                start, end = (lines.place(it["range"][key]) for key in ("start", "end"))
                new = text[:start] + new + text[max(start, end) :]
            text = new
        return Document(self.uri, self.language, version, text, script)


class Documents:
    """The open documents, by their names."""

    def __init__(self):
        self.open = {}

    def get(self, uri):
        return self.open.get(uri)

    def add(self, item):
        self.open[item["uri"]] = Document(item["uri"], item["languageId"], item["version"], to_bytes(item["text"]))
        return self.open[item["uri"]]

    def change(self, identifier, changes):
        document = self.open.get(identifier["uri"])
        if document:
            self.open[identifier["uri"]] = document.changed(identifier.get("version"), changes)
        return self.open.get(identifier["uri"])

    def remove(self, uri):
        self.open.pop(uri, None)
