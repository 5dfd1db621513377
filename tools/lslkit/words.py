"""The words that tools, editors and page share: each table is a file of tools/words/."""
import functools
import json
import re

from .places import text_of


@functools.lru_cache(maxsize=None)
def table(name):
    """The table of this name, as its file has it."""
    return json.loads(text_of("tools", "words", f"{name}.json"))


def table_or_none(name):
    """The table of this name, where there is one."""
    try:
        return table(name)
    except OSError:
        return None


def filled(phrase, fields):
    """A phrase with these texts in the places of its fields `{name}`; any other brace is itself. page/words.js does the
    same."""
    return re.sub(r"\{(\w+)\}", lambda it: str(fields.get(it[1], it[0])), phrase)
