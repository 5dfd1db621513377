"""Syntax files for editors, from the tables and the list of names: what this language has, and what it hasn't."""
import json

from . import about, tables, tokens
from .debugger import extension

MADE = "made by tools/syntax from the tables of the language: change those"
NO_KINDS = ("float", "vector", "rotation", "quaternion")
CONTROL = tuple(sorted(tokens.WORDS - {*tokens.TYPES, *NO_KINDS}))
SIGNS = r"\+\+|--|<<|>>|&&|\|\||[-+*/%<>=!]=|[-+*/%=<>!~&|^]"


def groups():
    """The names of each group. `missing` is what LSL has and this language hasn't."""
    here = {"call": tables.calls(), "event": tables.events(), "constant": tables.constants()}
    missing = [name for name, sort in tables.known_to_lsl().items() if sort in here and name not in here[sort]]
    return {
        "control": CONTROL,
        "kind": tokens.TYPES,
        "call": sorted(here["call"]),
        "event": sorted(here["event"]),
        "constant": sorted(here["constant"]),
        "missing": sorted([*missing, *NO_KINDS]),
    }


# Vim

VIM_LINKS = {
    "control": "Statement",
    "kind": "Type",
    "call": "Function",
    "event": "Special",
    "constant": "Constant",
    "missing": "Error",
    "comment": "Comment",
    "string": "String",
    "escape": "SpecialChar",
    "number": "Number",
    "point": "Error",
    "label": "Label",
}


def vim_words(group, names):
    """The lines that name a group's words, each of at most 110 columns."""
    head = f"syntax keyword lsl{group.capitalize()}"
    lines = [head]
    for name in names:
        if len(lines[-1]) + len(name) + 1 > 110:
            lines.append(head)
        lines[-1] += f" {name}"
    return lines


def vim_syntax():
    lines = [f'" Syntax of the Linden Scripting Language as Dishhollow has it, {MADE}.']
    lines += ['if exists("b:current_syntax")', "  finish", "endif", ""]
    for group, names in groups().items():
        lines += vim_words(group, names)
    lines += [
        "",
        r"syntax match lslNumber /\<\(0[xX]\x\+\|\d\+\)\>/",
        r"syntax match lslPoint /\<\d\+\.\d*\|\.\d\+/",
        r"syntax match lslLabel /@\s*\h\w*/",
        r"syntax match lslEscape /\\./ contained",
        r'syntax region lslString start=/"/ skip=/\\./ end=/"/ contains=lslEscape',
        r"syntax match lslComment +//.*$+",
        r"syntax region lslComment start=+/\*+ end=+\*/+",
        "",
    ]
    lines += [f"highlight default link lsl{group.capitalize()} {link}" for group, link in VIM_LINKS.items()]
    return "\n".join([*lines, "", 'let b:current_syntax = "lsl"', ""])


VIM_DETECT = "autocmd BufNewFile,BufRead *.lsl setfiletype lsl\n"
VIM_PLUGIN = r"""" :make says why the script isn't accepted. g:dishhollow names the folder with tools/explain; it is found without it
" where this file is in that folder, or is a link to it.
let s:folder = get(g:, 'dishhollow', fnamemodify(resolve(expand('<sfile>:p')), ':h:h:h:h'))
if executable(s:folder . '/tools/explain')
  let &l:makeprg = s:folder . '/tools/explain %:S'
endif
setlocal errorformat=%f:%l:%c:\ error:\ %m,bad\ script\ \"%f\"\ %l:%c\ %m,%-G%.%#
setlocal commentstring=//%s
"""

# VS Code


def alternation(names):
    return r"\b(?:" + "|".join(names) + r")\b"


def textmate():
    """The grammar, in the form that VS Code and others read."""
    scopes = {
        "control": "keyword.control.lsl",
        "kind": "storage.type.lsl",
        "call": "support.function.lsl",
        "event": "entity.name.function.event.lsl",
        "constant": "support.constant.lsl",
        "missing": "invalid.illegal.missing.lsl",
    }
    string = {
        "name": "string.quoted.double.lsl",
        "begin": '"',
        "end": '"',
        "patterns": [{"name": "constant.character.escape.lsl", "match": r"\\."}],
    }
    patterns = [
        {"name": "comment.line.lsl", "match": "//.*$"},
        {"name": "comment.block.lsl", "begin": r"/\*", "end": r"\*/"},
        string,
        {"name": "invalid.illegal.point.lsl", "match": r"\b\d+\.\d*|\.\d+"},
        {"name": "constant.numeric.lsl", "match": r"\b(?:0[xX][0-9A-Fa-f]+|\d+)\b"},
        {"name": "entity.name.label.lsl", "match": r"@\s*[A-Za-z_]\w*"},
        *({"name": scopes[group], "match": alternation(names)} for group, names in groups().items()),
        {"name": "keyword.operator.lsl", "match": SIGNS},
    ]
    return {"name": "LSL (Dishhollow)", "comment": MADE, "scopeName": "source.lsl", "patterns": patterns}


def matcher(name, regexp, **places):
    where = ["autoDetect", "${workspaceFolder}"]
    pattern = {"regexp": regexp, **places}
    return {"name": name, "owner": "lsl", "fileLocation": where, "severity": "error", "pattern": pattern}


FOLDER = "The folder of Dishhollow. Left empty, it is the one in which this extension is."


def vscode_package():
    """The extension: the languages, the grammar, what starts server and debugger, and the matchers of
    `lsl check`."""
    language = {"id": "lsl", "aliases": ["LSL"], "extensions": [".lsl"]}
    language["configuration"] = "./language-configuration.json"
    world = {"id": "lsl-world", "aliases": ["LSL world"], "extensions": [".world"]}
    folder = {"type": "string", "default": "", "description": FOLDER}
    grammar = {"language": "lsl", "scopeName": "source.lsl", "path": "./syntaxes/lsl.tmLanguage.json"}
    places = {"file": 1, "line": 2, "column": 3, "message": 4}
    return {
        "name": "lsl-dishhollow",
        "displayName": "LSL (Dishhollow)",
        "description": "The Linden Scripting Language as Dishhollow has it; what it hasn't is marked",
        "version": about.version(),
        "publisher": "dishhollow",
        "license": "MIT",
        "engines": {"vscode": "^1.60.0"},
        "categories": ["Programming Languages", "Debuggers"],
        "main": "./extension.js",
        "activationEvents": ["onLanguage:lsl", "onLanguage:lsl-world", "onDebug"],
        "contributes": {
            "languages": [language, world],
            "grammars": [grammar],
            "problemMatchers": [
                matcher("lsl", r"^(.+):(\d+):(\d+): error: (.*)$", **places),
                matcher("lsl-line", r'^bad script "(.+)" (\d+):(\d+) (fault \d+)$', **places),
            ],
            "configuration": {"title": "LSL", "properties": {"lsl.folder": folder}},
            **extension.contributed(),
        },
    }


VSCODE_CONFIGURATION = {
    "comments": {"lineComment": "//", "blockComment": ["/*", "*/"]},
    "brackets": [["{", "}"], ["[", "]"], ["(", ")"]],
    "autoClosingPairs": [["{", "}"], ["[", "]"], ["(", ")"], ['"', '"']],
}


def files():
    """Each file of editors/ with its text."""

    def as_json(value):
        return json.dumps(value, indent=2) + "\n"

    return {
        "vim/syntax/lsl.vim": vim_syntax(),
        "vim/ftdetect/lsl.vim": VIM_DETECT,
        "vim/ftplugin/lsl.vim": VIM_PLUGIN,
        "vscode/package.json": as_json(vscode_package()),
        "vscode/language-configuration.json": as_json(VSCODE_CONFIGURATION),
        "vscode/syntaxes/lsl.tmLanguage.json": as_json(textmate()),
    }
