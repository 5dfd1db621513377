"""The checks of the formatter."""
import os
import re

from . import formatting, places, random_scripts, syntax, tokens
from .checking import check, need
from .server_checks import texts


def scripts_of_suite():
    """The scripts of the suite that are written line by line."""
    for text in texts("suite", "*.cases").values():
        for found in re.finditer(r"(?m)^@ \S+\.lsl\n((?:[|+].*\n)+)", text):
            yield "".join(f"{line[1:]}\n" if line[0] == "|" else line[1:] for line in found[1].splitlines())


def need_formatted(text, name):
    """Whether a text, as bytes, can be formatted, and stays as it is then."""
    made = formatting.formatted(text)
    cut = [[(it.sort, it.text) for it in tokens.cut(each)] for each in (text, made)]
    need(cut[0] == cut[1], name, "has other tokens")
    need(formatting.formatted(made) == made, name, "is formatted otherwise a second time")
    return made


@check
def examples_are_formatted_as_they_are():
    for name, text in texts("examples", "**", "*.lsl").items():
        if "/bad/" not in name:
            need(need_formatted(text.encode(), name) == text.encode(), name, "is formatted otherwise")


@check
def scripts_of_the_suite_are_formatted():
    count = 0
    for text in scripts_of_suite():
        try:
            need_formatted(text.encode(), text)
            count += 1
        except formatting.Unformatted as error:
            is_read = True
            try:
                syntax.read(tokens.cut(text.encode()))
            except syntax.Unexpected:
                is_read = False
            is_whole = tokens.cut(text.encode())[-1].place == len(text.encode())
            need(not (is_read and is_whole), "not formatted:", error, text)
    need(count > 300, "only", count, "scripts of the suite were formatted")


@check
def random_scripts_are_formatted():
    for seed in range(int(os.environ.get("LSL_SCRIPTS", "60"))):
        text = random_scripts.script(seed).encode()
        syntax.read(tokens.cut(text))
        need_formatted(text, f"random script {seed}")


@check
def layouts_are_as_shown():
    before, after = (places.text_of("tools", "editor_tests", f"layout.{it}") for it in ("before", "after"))
    made = formatting.formatted(before.encode()).decode()
    need(made == after, "formatted as", made)
    for text in ("default {", 'integer a = "', "f(] ) default { }", "default { timer() { ) } }"):
        try:
            formatting.formatted(text.encode())
        except formatting.Unformatted:
            continue
        need(False, text, "is formatted")
