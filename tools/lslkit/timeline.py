"""A journal as a page with a timeline: one file, without a server and without anything of the network. The page's own
scripts draw it (page/view.js), and are put into the file."""
import json
import re
from html import escape

from . import words
from .places import text_of

TEMPLATE, STYLE, FIRST = "timeline.html", "timeline.css", "alone.js"
POLICY = "default-src 'none'; script-src 'unsafe-inline'; style-src 'unsafe-inline'; img-src data:"
IMPORT = re.compile(r'^import \{([^}]*)\}\s*from "\./([\w.]+)";\n', re.M)
EXPORT = re.compile(r"^export ((?:async )?(?:const|function|class)) (\[[^\]]*\]|\w+)", re.M)


def modules():
    """The names of the scripts, each after those that it imports."""
    found = []

    def add(name):
        for _, other in IMPORT.findall(text_of("page", name)):
            if other not in found:
                add(other)
        found.append(name)

    add(FIRST)
    return found


def files():
    """The files of page/ that the page is made of."""
    return [TEMPLATE, STYLE, *modules()]


def exported(text):
    """The names that a script exports."""
    return [it for _, names in EXPORT.findall(text) for it in re.findall(r"\w+", names)]


def block(name):
    """A script as a block, in which its names are its own: what it exports is kept by the name of its file."""
    text = text_of("page", name)
    body = IMPORT.sub(lambda it: f'const {{{it[1].replace(" as ", ": ")}}} = modules["{it[2]}"];\n', text)
    body = EXPORT.sub(r"\1 \2", body)
    return f'{{\n{body}modules["{name}"] = {{ {", ".join(exported(text))} }};\n}}\n'


def script():
    return "const modules = {};\n" + "".join(map(block, modules()))


def in_script(text):
    """A text that ends no script of a page."""
    return text.replace("<", "\\u003c")


def page(text, world, observed, title):
    """The page of a journal's text and its world's, with what was observed of its steps and states."""
    data = {
        "journal": text,
        "world": world or "",
        "steps": observed.steps if observed else None,
        "states": observed.states if observed else {},
        "words": {name: words.table(name) for name in ("journal", "steps")},
    }
    head, _, body = text_of("page", TEMPLATE).partition("</head>\n")
    policy = f'<meta http-equiv="Content-Security-Policy" content="{POLICY}">\n'
    head = re.sub(r"(?s)<meta http-equiv.*?>\n", policy, head)
    head = re.sub(r"<title>.*?</title>", lambda _: f"<title>{escape(title)}</title>", head)
    head = re.sub(r'<link rel="stylesheet".*?>\n', lambda _: f"<style>\n{text_of('page', STYLE)}</style>\n", head)
    head = re.sub(r"<script.*?</script>\n", "", head)
    said = in_script(json.dumps(data, separators=(",", ":")))
    scripts = f'<script type="application/json" id="data">{said}</script>\n'
    scripts += f'<script type="module">\n{script()}</script>\n'
    return f"{head}</head>\n{body.replace('</body>', scripts + '</body>')}"
