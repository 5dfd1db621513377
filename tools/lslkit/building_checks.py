"""The checks of how programs are built, in a small repository with a kit of scripts."""
import glob
import os
import pty
import re
import signal
import time

from . import about, kit, places, webmodule
from .checking import check, need
from .stubs import MODULE, repository

DOING = "lsl: compiling the program without its proofs"
ONCE = f"{DOING}, in a minute or two; './lsl --prove' proves it, in about an hour\n"
COMPILED = "compiled check a.lsl\n"
PROVED = "proved check a.lsl\n"
INNER = '@"lsl_page::lsl_page_run"'
OTHERS = "".join(f'\ndefine void @"lsl_page::{it}"() #0 {{\n  ret void\n}}\n' for it in webmodule.EXPORTS[1:])
# What a static library has beside the module of a program.
EXPORT = f"""
define void @lsl_page_run() #0 {{
  call void {INNER}()
  ret void
}}
"""
KEPT = ["lsl-unproved", "lsl-unproved.about", "lsl-unproved.lock", "lsl-unproved.sources", "parts"]


def need_run(repo, words, wanted, notes="", **how):
    came = repo.ran("lsl", *words, **how)
    need(came == (0, wanted, notes), words, "ended with", came, "and not with", (0, wanted, notes))


@check
def a_program_is_compiled_once_with_one_line():
    with repository() as repo:
        need_run(repo, ["check", "a.lsl"], COMPILED, ONCE)
        need_run(repo, ["check", "a.lsl"], COMPILED)
        need_run(repo, ["--try", "check", "a.lsl"], COMPILED)
        need(repo.calls("lowered") == 1, "it was lowered", repo.calls("lowered"), "times")
        need(repo.built() == KEPT, "out/ has", repo.built())


@check
def parts_that_did_not_change_are_kept():
    with repository() as repo:
        need_run(repo, ["check", "a.lsl"], COMPILED, ONCE)
        need(repo.calls("compiled") == 2, repo.calls("compiled"), "parts were compiled")
        # What moves numbers and nothing else changes no part.
        moved = MODULE.replace("static.0", "static.5").replace("site-7", "site-8").replace("FOLDER", "other")
        for text, count in ((moved, 2), (moved.replace("i1 true", "i1 false"), 3)):
            repo.write_in_kit("module", text)
            repo.write("crates/low/src/lib.rt", f"fn low() {{}} // {count}\n")
            need_run(repo, ["check", "a.lsl"], COMPILED, ONCE)
            need(repo.calls("compiled") == count, repo.calls("compiled"), "parts were compiled, and not", count)
        need(len(os.listdir(repo.at("out", "parts", "lsl"))) == 2, "old parts are kept")


@check
def a_module_of_another_form_is_refused():
    with repository() as repo:
        for text in (MODULE.replace("rattle-llvm-checks", "other"), MODULE.replace(" constant ", " global ")):
            repo.write_in_kit("module", text)
            status, output, notes = repo.ran("lsl", "check", "a.lsl")
            need((status, output) == (125, "") and "this kit can't be used" in notes, "status", status, notes)
            need("Traceback" not in notes, "said", notes)


def until(holds):
    """Waits until something is so, and not for ever."""
    for _ in range(5000):
        if holds():
            return
        time.sleep(0.02)
    need(False, "it never came to that")


def waiting(repo):
    """The process of the kit that waits, once it does."""
    waits = os.path.join(repo.kit, "waits")
    until(lambda: os.path.getsize(waits))
    with open(waits, encoding="ascii") as file:
        return int(file.read())


@check
def a_build_that_was_stopped_begins_again():
    for number, wanted in ((signal.SIGINT, 130), (signal.SIGTERM, 143), (signal.SIGKILL, -signal.SIGKILL)):
        with repository() as repo:
            repo.write_in_kit("waits", "")
            with repo.begin("lsl", "check", "a.lsl") as running:
                process = waiting(repo)
                running.send_signal(number)
                _, notes = running.communicate()
            until(lambda: not os.path.exists(f"/proc/{process}"))
            need(running.returncode == wanted, number, "ended it with", running.returncode)
            need("Traceback" not in notes.decode(), "said", notes)
            left = os.listdir(repo.rooms)
            need(repo.built() == ["lsl-unproved.lock"], number, "leaves", repo.built())
            need(number == signal.SIGKILL or not left, number, "leaves", left)
            os.remove(os.path.join(repo.kit, "waits"))
            need_run(repo, ["check", "a.lsl"], COMPILED, ONCE)
            need(repo.built() == KEPT and not os.listdir(repo.rooms), "out/ has", repo.built(), left)


@check
def two_calls_at_once_build_once():
    with repository() as repo:
        repo.write_in_kit("waits", "")
        with repo.begin("lsl", "check", "a.lsl") as first:
            waiting(repo)
            os.remove(os.path.join(repo.kit, "waits"))
            with repo.begin("lsl", "check", "a.lsl") as second:
                said = second.stderr.readline().decode()
                need("another call is building" in said, "said", said)
                first.send_signal(signal.SIGTERM)
                output, _ = second.communicate()
        need((second.returncode, output.decode()) == (0, COMPILED), "status", second.returncode, output)
        need(repo.calls("lowered") == 2, "it was lowered", repo.calls("lowered"), "times")


@check
def progress_is_shown_on_a_terminal():
    with repository() as repo:
        reader, writer = pty.openpty()
        how = {"stdout": writer, "stderr": writer}
        with repo.begin("lsl", "check", "a.lsl", **how) as running:
            running.wait()
        said = os.read(reader, 65536).decode()
        os.close(reader)
        os.close(writer)
    need(running.returncode == 0, "status", running.returncode, said)
    for wanted in (f"\r{DOING}, 0 s: reading", r"\rlsl: compiled the program without its proofs in \d+ s; './lsl"):
        need(re.search(wanted, said), repr(wanted), "isn't in", repr(said))
    need(said.count("\n") == 2, "said", repr(said))


@check
def a_missing_kit_is_told_in_words():
    with repository() as repo:
        for words in (["check", "a.lsl"], ["--try", "check", "a.lsl"], ["--prove"], ["--prove", "check", "a.lsl"]):
            came = repo.ran("lsl", *words, path="/nowhere")
            need(came == (125, "", f"lsl: {kit.MISSING}\n"), words, "ended with", came)
        status, _, notes = repo.ran("tools/explain", "a.lsl", path="/nowhere")
        need((status, notes) == (125, f"lsl: {kit.MISSING}\n"), "status", status, notes)
        status, _, notes = repo.ran("tools/page", "build", "--try", path="/nowhere")
        need((status, notes) == (125, f"page: {kit.MISSING}\n"), "status", status, notes)


@check
def an_out_folder_that_cannot_be_made_is_told():
    with repository() as repo:
        repo.write("out", "")
        status, output, notes = repo.ran("lsl", "check", "a.lsl")
        need((status, output) == (125, "") and notes.endswith("can't be written: File exists\n"), status, notes)


@check
def a_proved_program_is_used_from_then_on():
    for names, wanted in (("rt ci NAME..\n", "rt ci"), ("rt check\n", "rt all check")):
        with repository() as repo:
            repo.write_in_kit("help", names)
            need_run(repo, ["check", "a.lsl"], COMPILED, ONCE)
            status, output, notes = repo.ran("lsl", "--prove", "check", "a.lsl")
            need((status, output) == (0, PROVED) and notes.count("\n") == 1, "status", status, output, notes)
            need(repo.calls(wanted) == 1, wanted, "was called", repo.calls(wanted), "times")
            need_run(repo, ["check", "a.lsl"], PROVED)
            need_run(repo, ["--try", "check", "a.lsl"], COMPILED)
            repo.write("crates/low/src/lib.rt", "fn other() {}\n")
            need_run(repo, ["check", "a.lsl"], COMPILED, ONCE)


@check
def a_program_is_proved_with_the_debugger():
    with repository() as repo:
        doing = "lsl: proving and building the {}, for some "
        for lines in ([doing.format("program"), doing.format("debugger")], []):
            status, output, notes = repo.ran("lsl", "--prove")
            lines += ["lsl: the program and the debugger are proved"]
            are_said = [line.startswith(it) for line, it in zip(notes.splitlines(), lines)]
            need((status, output) == (0, "") and all(are_said) and len(are_said) == len(lines), "status", status, notes)
        built = [it for it in repo.built() if "." not in it]
        need(built == ["lsl", "lsl_debug"], "out/ has", built)


@check
def a_failed_proof_makes_no_program():
    with repository() as repo:
        repo.write_in_kit("status", "1")
        status, output, notes = repo.ran("lsl", "--prove", "check", "a.lsl")
        need((status, output) == (125, "") and notes.endswith("\nlsl: rt ended with 1\n"), "status", status, notes)
        need(repo.built() == ["lsl.lock"], "out/ has", repo.built())


@check
def a_version_says_which_program_runs():
    with repository() as repo:
        text = "lsl {}\ncommit: unknown\nproof: {}\nkit: stub kit\n"
        need_run(repo, ["--version"], text.format("unversioned", about.UNBUILT))
        repo.write("VERSION", "1.2.3\n")
        repo.ran("lsl", "check", "a.lsl")
        need_run(repo, ["--version"], text.format("1.2.3", about.UNPROVED))
        repo.ran("lsl", "--prove")
        need_run(repo, ["--version"], text.format("1.2.3", about.PROVED))
        need_run(repo, ["--try", "--version"], text.format("1.2.3", about.UNPROVED))


@check
def a_package_builds_nothing():
    with repository() as repo:
        repo.write("ABOUT", "version: 1.2.3\ncommit: abc\nproof: proved\nkit: its kit\n")
        status, output, notes = repo.ran("lsl", "check", "a.lsl")
        need((status, output) == (125, "") and "this package isn't whole" in notes, "status", status, notes)
        repo.write("libexec/lsl", '#!/bin/sh\necho "packaged $*"\n')
        os.chmod(repo.at("libexec/lsl"), 0o755)
        need_run(repo, ["check", "a.lsl"], "packaged check a.lsl\n")
        need_run(repo, ["--version"], "lsl 1.2.3\ncommit: abc\nproof: proved\nkit: its kit\n")
        status, _, notes = repo.ran("lsl", "debug", "a.lsl")
        need((status, notes) == (125, "lsl: this package has no debugger\n"), "status", status, notes)
        for words in (["--prove"], ["--try", "check", "a.lsl"]):
            status, _, notes = repo.ran("lsl", *words)
            need(status == 125 and "needs a checkout" in notes and notes.count("\n") == 1, words, "said", notes)
        need(not repo.calls("") and not repo.built(), "the kit was called")


def add_page(repo):
    """Gives a repository what the page is made of."""
    repo.write("crates.txt", "low:\nlsl_page staticlib: low\nlsl: low\n")
    for name in ("crates/lsl_page/src/lib.rt", "page/heap.c"):
        repo.write(name, "")
    tables = (f"crates/lsl_table/src/{it}.rt" for it in ("calls", "constants", "events"))
    words = (os.path.relpath(it, places.TOP) for it in glob.glob(places.in_top("tools", "words", "*.json")))
    for name in ("page/index.html", "tools/lsl_names.tsv", *tables, *words):
        repo.write(name, places.text_of(name))
    repo.write_in_kit("module", MODULE.replace("@main", INNER) + OTHERS)


def need_page(repo, words, wanted):
    """Makes the page, which is told by lines that begin so."""
    status, output, notes = repo.ran("tools/page", "build", *words)
    lines = notes.splitlines()
    is_told = len(lines) == len(wanted) and all(line.startswith(f"page: {it}") for line, it in zip(lines, wanted))
    need(status == 0 and is_told and "out/page has the page" in output, "status", status, notes)


@check
def a_page_is_compiled_in_parts():
    with repository() as repo:
        add_page(repo)
        for lines in (["compiling the module without its proofs"], []):
            need_page(repo, ["--try"], [*lines, "the module was compiled without its proofs"])
        need(repo.calls("lowered") == 1, "it was lowered", repo.calls("lowered"), "times")
        need(len(os.listdir(repo.at("out", "parts", "lsl_page"))) == 2, "other parts are kept")


def need_exported_once(repo):
    """The export is the function that calls the other one."""
    texts = [places.text_of(it) for it in glob.glob(repo.at("out", "parts", "lsl_page", "*.o"))]
    exported = [it for text in texts for it in text.splitlines() if it.startswith("define") and "wasm-export" in it]
    need(len(exported) == 1 and "@lsl_page_run() #0" in exported[0], "exported are", exported)
    need(any(f"call void {INNER}()" in it for it in texts), "the export calls itself")


@check
def a_page_is_proved_as_the_program_is():
    for names, wanted in (("rt ci NAME..\n", "rt ci"), ("rt check\n", "rt all check")):
        with repository() as repo:
            add_page(repo)
            repo.write_in_kit("help", names)
            repo.write_in_kit("module", MODULE.replace("@main", INNER) + OTHERS + EXPORT)
            need_page(repo, [], ["proving and compiling the module, for some"])
            need_exported_once(repo)
            need_page(repo, [], [])
            need(repo.calls(wanted) == repo.calls("rattle build") == 1, wanted, "was called", repo.calls(wanted), "times")
            need(not os.listdir(repo.rooms), "the build leaves", os.listdir(repo.rooms))
            repo.write("crates/low/src/lib.rt", "fn other() {}\n")
            repo.write_in_kit("status", "1")
            status, _, notes = repo.ran("tools/page", "build")
            need(status == 125 and notes.endswith("\npage: rt ended with 1\n"), "status", status, notes)
            need(repo.calls("rattle build") == 1, "it was lowered without a proof")


@check
def a_check_counts_its_parts():
    counts = "#!/bin/sh\necho '3 passed, 0 failed'\n"
    with repository() as repo:
        case = f"? a\n> check a.lsl\n@ a.lsl\n|default\n= 0\n|{COMPILED}"
        for name, text in (("suite/a.cases", case), ("suite/examples.cases", case)):
            repo.write(name, text)
        for name in ("check_tools", "syntax", "example_cases"):
            repo.write(f"tools/{name}", f"#!/bin/sh\ncat suite/examples.cases\n" if name == "example_cases" else counts)
        status, output, notes = repo.ran("tools/check", "suite", "tools", "generated")
        need(status == 0 and output.endswith("\n16 passed, 0 failed\n"), "status", status, output, notes)
        repo.write("suite/a.cases", case.replace("compiled", "other"))
        status, output, _ = repo.ran("tools/check", "suite")
        need(status == 1 and "FAILED  suite: 1 passed, 1 failed" in output, "status", status, output)
