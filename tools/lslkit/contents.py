"""What a package has: the programs, the page, and of the repository what runs without the kit."""
import glob
import os
import sys
import tempfile
from modulefinder import ModuleFinder

from . import about, kit, sources, timeline, webmodule, webpage
from .archives import Entry, moved
from .places import TOP, bytes_of, in_top, text_of

NAME = "dishhollow"
LEFT_OUT = "left out"
PAGE = (".css", ".html", ".js", ".json", ".wasm")
# What needs Python alone.
SCRIPTS = ("lsl", "tools/explain", "tools/lsl-server", "tools/show", "tools/suite")
# Modules that are run as processes of their own.
STARTED = ("lslkit.server.worker", "lslkit.server.player")
# Files and folders of the repository, and where they are in a package. The first that fits a path counts.
PLACES = (
    *((it, it) for it in ("CHANGELOG.md", "CONTRIBUTING.md", "LICENSE", "README.md")),
    *((it, it) for it in ("docs/", "editors/", "tools/words/")),
    *((it, it) for it in ("page/picture.png", "tools/lsl_names.tsv", "tools/lslkit/sender.lsl")),
    *((it, it) for it in (f"page/{name}" for name in timeline.files())),
    *((f"crates/lsl_table/src/{it}.rt", f"tools/tables/{it}.rt") for it in ("calls", "constants", "events")),
    ("crates/lsl_rows/data/examples/", "examples/"),
    ("crates/lsl_rows/data/", "suite/"),
    *((f"package/{it}", f"man/man1/{it}") for it in ("lsl.1", "lsl-debug.1")),
    ("package/lsl.bash", "completions/lsl.bash"),
    ("package/_lsl", "completions/_lsl"),
)


def git(*words):
    return kit.said_by("git", "-C", TOP, *words)


def commit():
    changed = git("status", "--porcelain", "--untracked-files=no").strip()
    return git("rev-parse", "HEAD").strip() + (", with changes" if changed else "")


def entries(programs):
    """The files of a package by their names. Its programs are given by their crates."""
    proofs = {crate: about.read(f"{binary}.about")["proof"] for crate, binary in programs.items()}
    shown, page_proof = page(proofs[about.PROGRAM])
    said = {
        **about.read(f"{programs[about.PROGRAM]}.about"),
        "version": about.version(),
        "commit": commit(),
        "debugger": proofs.get(about.DEBUGGER, LEFT_OUT),
        "page": page_proof,
    }
    made = {f"libexec/{crate}": Entry(stripped(binary), True) for crate, binary in programs.items()}
    made["suite/examples"] = Entry(link="../examples")
    made["ABOUT"] = Entry("".join(f"{key}: {it}\n" for key, it in said.items()).encode())
    made.update((f"licences/{it}", Entry(licence_of(it))) for it in libraries(programs))
    return {**dict(tracked()), **dict(scripts()), **shown, **made}


# The programs


def stripped(binary):
    """What a program holds, without its symbols."""
    with tempfile.TemporaryDirectory(prefix="lsl-") as room:
        bare = os.path.join(room, "bare")
        kit.said_by("strip", "--remove-section=.comment", "-o", bare, binary)
        return bytes_of(bare)


def libraries(programs):
    """The kit's libraries of which code is in the programs of these crates."""
    own = {it for crate in programs for it in sources.crates_of(crate)}
    lines = (line.partition(":") for line in text_of("crates.txt").splitlines())
    return sorted({it for head, _, words in lines if head.partition(" ")[0] in own for it in words.split()} - own)


def licence_of(library):
    texts = (bytes_of(kit.path("rattle", library, it)) for it in ("LICENSE-MIT", "LICENSE"))
    return next(filter(None, texts))


# The page


def page(proof):
    """The files of the page, and what is said of its proof. A proved program comes with a proved page, or with none."""
    how = {"proved": about.PROVED, "unproved": about.UNPROVED}.get(webmodule.made_as())
    if how not in (about.PROVED, proof):
        print("package: the page is left out: 'tools/page build' makes it", file=sys.stderr)
        return {}, LEFT_OUT
    webpage.make()
    names = [it for it in glob.glob(f"{webpage.FOLDER}/*") if it.endswith(PAGE)]
    return {f"page/{os.path.basename(it)}": Entry(bytes_of(it)) for it in names}, how


# The repository


def of_repository(path, place):
    return place, Entry(bytes_of(in_top(path)), os.access(in_top(path), os.X_OK))


def tracked():
    """The files that a package has as they are in the repository."""
    for path in git("ls-files", "-z").split("\0"):
        place = moved(path, PLACES)
        if place:
            yield of_repository(path, place)


def scripts():
    """The scripts, and the modules that they import."""
    finder = ModuleFinder(path=[in_top("tools")])
    for it in SCRIPTS:
        finder.run_script(in_top(it))
        yield of_repository(it, it)
    for it in STARTED:
        finder.import_hook(it)
    for name, module in finder.modules.items():
        if name.startswith("lslkit"):
            path = os.path.relpath(module.__file__, TOP)
            yield of_repository(path, path)
