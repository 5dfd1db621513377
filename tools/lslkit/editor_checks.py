"""The checks of the language server in real editors, with the configurations of docs/EDITORS.md."""
import contextlib
import os
import re
import shutil
import subprocess
import tempfile
from unittest import mock

from . import places
from .checking import Failed, Skipped, check, need
from .debug_checks import environment
from .server_checks import binary

TRIALS = places.in_top("tools", "editor_tests")


def block(language, mark):
    """The first block of a language in docs/EDITORS.md that has a word, for this repository."""
    found = re.findall(r"(?s)```%s\n(.*?)```" % language, places.text_of("docs", "EDITORS.md"))
    text = next(it for it in found if mark in it)
    return text.replace("DISHHOLLOW", places.TOP)


# After which an editor that doesn't end by itself is ended.
SECONDS = 300


def tried(command, room, **more):
    """What an editor says that does a trial in a folder of its own."""
    for name in ("trial.lsl", "trial.world"):
        shutil.copy(os.path.join(TRIALS, name), room)
    environment = {**os.environ, "LSL_PROGRAM": binary(), "HOME": room, **more}
    how = {"stdin": subprocess.DEVNULL, "stdout": subprocess.PIPE, "stderr": subprocess.STDOUT}
    try:
        ran = subprocess.run(command, cwd=room, env=environment, timeout=SECONDS, check=False, **how)
    except subprocess.TimeoutExpired as error:
        raise Failed(f"{command[0]} doesn't end: {(error.stdout or b'').decode(errors='replace')}") from None
    return ran.stdout.decode(errors="replace")


def need_lines(said, *wanted):
    for it in wanted:
        need(it in said, it, "isn't in", said)


def need_editor(name):
    if shutil.which(name) is None:
        raise Skipped(f"there is no {name}")


@contextlib.contextmanager
def the_core():
    """Has the debugger's core in the environment, which is made first where need be."""
    with mock.patch.dict(os.environ, environment()):
        yield


FAULT = "no such variable, function or state"
HOVER = "Says msg to the owner alone"


@check
def neovim_uses_the_server():
    need_editor("nvim")
    with tempfile.TemporaryDirectory() as room:
        config = os.path.join(room, "init.lua")
        places.write_text(config, block("lua", "vim.lsp"))
        said = tried(["nvim", "--headless", "-u", config, "-S", os.path.join(TRIALS, "neovim.lua"), "+qa!"], room)
    faults = ["fault true", "fault 10 8 13 20", "mended true", "accepted true", "world true", "world 3 "]
    need_lines(said, *faults, HOVER, "definition true", "rename true", "completion llMessageLinked", "formatted true")
    need_lines(said, "signature says llSay(integer channel, string msg)")


def emacs(config, trial):
    start = "/usr/share/emacs/site-lisp/debian-startup.el"
    quiet = "(setq make-backup-files nil create-lockfiles nil load-prefer-newer t)"
    with tempfile.TemporaryDirectory() as room:
        places.write_text(os.path.join(room, "init.el"), config)
        words_ = ["emacs", "--batch", "--eval", quiet, *(["-l", start] if os.path.exists(start) else [])]
        words_ += ["--eval", "(package-initialize)", "-l", "init.el", "-l", os.path.join(TRIALS, trial)]
        said = tried(words_, room)
    if "Cannot open load file" in said:
        raise Skipped("Emacs has no package for the protocol")
    return said


@check
def emacs_uses_the_server_by_eglot():
    need_editor("emacs")
    said = emacs(block("elisp", "eglot"), "eglot.el")
    need_lines(said, "fault true", f"fault 11 lsl [20]: {FAULT}", "mended true", HOVER, "definition 4", "rename t")
    need_lines(said, "formatted         llOwnerSay(words(count));", "completion         llMessageLinked", "ended")


@check
def emacs_uses_the_server_by_lsp_mode():
    need_editor("emacs")
    said = emacs(block("elisp", "lsp-mode"), "lsp_mode.el")
    need_lines(said, "fault true", f"fault 10 {FAULT}", HOVER, "rename t", "ended")


@check
def emacs_debugs_by_dap_mode():
    need_editor("emacs")
    with the_core():
        said = emacs(block("elisp", "dap-mode"), "dap_mode.el")
    need_lines(said, "stopped true", "stopped at (touch_start 10)", "step at (touch_start 11)", "next at (", "ended true")


@check
def vim_uses_the_server_by_ale():
    need_editor("vim")
    with tempfile.TemporaryDirectory() as room:
        config, said = os.path.join(room, "vimrc"), os.path.join(room, "said")
        places.write_text(config, "set nocompatible\n" + block("vim", "ale#linter"))
        tried(["vim", "-Nu", config, "-es", "-S", os.path.join(TRIALS, "ale.vim")], room, SAID=said)
        if not os.path.exists(said):
            raise Skipped("Vim has no ALE")
        said = places.text_of(said)
    need_lines(said, "fault true", f"fault 11 9 20: {FAULT}", "mended true", "hover true", "definition true")


@check
def the_extension_for_vs_code_uses_the_server():
    need_editor("node")
    with tempfile.TemporaryDirectory() as room:
        said = tried(["node", os.path.join(TRIALS, "vscode.cjs"), places.TOP, room], room)
    need_lines(said, "fault true", "fault 10 8 13 20 0", "mended true", HOVER, "signature 1", "definition 3")
    need_lines(said, "references 3", "completion llSay(${1:channel}, ${2:msg})$0")
    need_lines(said, "rename string words(integer number) {", "calls touch_start 2", 'typed 12 "    "')
    need_lines(said, "refused llSay is a call of the language", "symbols count words default", "tokens 0", "ended")
    need_lines(said, "debugged lsl trial.lsl --touch Someone", "adapter lsl debug --adapter", "configured lsl a true")
    need_lines(said, "played lsl play trial.lsl", 'formatted "        llOwnerSay(words(count));"')
