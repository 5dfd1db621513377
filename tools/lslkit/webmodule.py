"""Makes the module of the page in the browser: the crate `lsl_page` is proved and lowered as a static library for
x86-64, and the same code is then compiled for WebAssembly, with the heap `page/heap.c`. docs/EDITORS.md says what that
rests on. It can be compiled without its proofs, as the program can."""
import hashlib
import os
import re
import shutil

from . import building, kit, lowering, proving, sources, unproved
from .jobs import run
from .kit import NotMade
from .places import in_top, text_of, write_text
from .progress import Progress

CRATE = "lsl_page"
EXPORTS = ("lsl_page_run", "lsl_page_trace", "lsl_page_seek", "lsl_page_state")
MODULE = in_top("out", "page", "lsl_page.wasm")
# What the module is made of beside the crates.
PARTS = (("page", "heap.c"), ("tools", "lslkit", "webmodule.py"))
# The stack lies lowest in the module's memory, and one that runs over traps: scripts that are nested as deep as the
# language allows want 0.7 MB.
STACK = 4194304
WASM = "wasm64-unknown-unknown"
COMPILER = (f"--target={WASM}", "-mcpu=lime1", "--no-default-config", "-fno-crash-diagnostics")
# As the kit compiles for WebAssembly: divisions of more than 64 bits are written out.
LOWERING = ("-mllvm", "-expand-div-rem-bits=64", "-mllvm", "-expand-fp-convert-bits=64")
SECTIONS = ("-ffunction-sections", "-fdata-sections", "-O3", "-c")
# Stands for the compiler of the module as it is lowered for x86-64, of which nothing is used.
COMPILES_NOTHING = ": > module.o && exit 0"
# What the module says of the processor that it was lowered for.
OF_PROCESSOR = re.compile(r' "(?:frame-pointer|probe-stack|stack-probe-size|target-cpu|target-features)"="[^"]*"')
EMPTY_GROUP = re.compile(r"^(attributes #\d+ = \{)\s*\}")
# A program that calls the exports. Without proofs a crate is lowered where a program uses it.
CALLER = """\
fn main(rt: HostRuntime) {
    let (alloc, mut page, mut written) = (rt.alloc(), [0], 0);
    lsl_page::lsl_page_run(alloc, &[], &[], &[], &[], &mut page, &mut written);
    lsl_page::lsl_page_trace(alloc, &[], 0, 0, &[], &[], &mut page, &mut written);
    lsl_page::lsl_page_seek(alloc, &[], 0, &[], &[], &[], &mut page, &mut written);
    lsl_page::lsl_page_state(alloc, &[], 0, 0, &[], &[], &mut page, &mut written);
}
"""


# Freshness


def made_of():
    """A sum of all that the module is made of."""
    parts = hashlib.sha256("".join(text_of(*it) for it in PARTS).encode()).hexdigest()
    return f"{sources.sum_of(CRATE)} {parts}"


def made_as(module=MODULE):
    """Whether the module was made of the files as they are: `proved` or `unproved`, or else nothing."""
    try:
        with open(f"{module}.sources", encoding="ascii") as file:
            total, _, how = file.read().rpartition(" ")
    except OSError:
        return None
    return how if os.path.isfile(module) and total == made_of() else None


# From the crate to a module of LLVM


def named_in(name):
    """The name of an export in a program that calls it. In a static library the export itself calls a function of this
    name."""
    return f'"{CRATE}::{name}"'


def libraries(crates):
    """The words that name the libraries which the crate needs, in a folder of crates."""
    named, below = sources.crates()[CRATE], sources.crates_of(CRATE)[:-1]
    folders = {it: os.path.join(crates, it, "out", "rlib") for it in below}
    words = ["--extern", f"std={kit.path('rlibs')}/std.rlib", "-L", f"dependency={kit.path('rlibs')}"]
    for it in named:
        words += ["--extern", f"{it}={folders[it]}/{it}.rlib"]
    for it in below:
        words += ["-L", f"dependency={folders[it]}"]
    return words


def proved(room, progress):
    """The module of LLVM to which the proved crate is lowered, as the only part."""
    kept, text = os.path.join(room, "kept.bc"), os.path.join(room, "whole.ll")
    folder = proving.proved(CRATE, room, progress)
    progress.tell("lowering the crate")
    words = [kit.path("bin", "rattle"), "build", "--crate-name", CRATE, "src/lib.rt"]
    words += libraries(os.path.dirname(folder))
    words += ["--antt-project", kit.path("rattle", "logic", "antt-project.json")]
    words += ["--logic-built", kit.path("logic_built")]
    words += ["--links", f"{CRATE}=", "--crate-type", "staticlib", "--incremental", "out/incremental"]
    words += ["--toolchain", kit.with_keeper(room, kept, COMPILES_NOTHING), "-o", os.path.join(room, "native.a")]
    run(words, progress.tick, cwd=folder)
    run(kit.as_text(kept, text), progress.tick)
    with open(text, encoding="utf-8") as file:
        return [file.read()]


def tried(room, progress):
    """The parts of the module of LLVM of a program that calls the crate's exports, without its proofs. The program is in
    a repository of its own, with the sources that it is made of."""
    crates, name, below = os.path.join(room, "top", "crates"), f"{CRATE}_caller", sources.crates_of(CRATE)
    for it in below:
        shutil.copytree(in_top("crates", it, "src"), os.path.join(crates, it, "src"))
    os.makedirs(os.path.join(crates, name, "src"))
    write_text(os.path.join(crates, name, "src", "main.rt"), CALLER)
    lines = sources.lines_of(below).replace(" staticlib:", ":")
    write_text(f"{crates}.txt", f"{lines}{name}: {CRATE}\n")
    text, _ = lowering.lowered(os.path.join(crates, name), room, progress)
    parts = unproved.parts_of(text, [named_in(it) for it in EXPORTS], below)
    return [named_as_exports(it) for it in parts]


# From there to a module of WebAssembly


def heads():
    """The lines with which a module for WebAssembly begins, by their second words."""
    words = [kit.clang(), *COMPILER, "-S", "-emit-llvm", "-x", "c", "/dev/null", "-o", "-"]
    return dict(re.findall(r"(?m)^(target (?:datalayout|triple)) = (.*)$", run(words)))


def for_wasm(line, begins):
    """A line of the module as it is in the one for WebAssembly."""
    first = line.partition(" = ")[0]
    if first in begins:
        return f"{first} = {begins[first]}\n"
    if line.startswith("module asm"):
        raise NotMade("the module has instructions of the processor that it was lowered for")
    if line.startswith("attributes #"):
        return EMPTY_GROUP.sub(r"\1 nounwind }", OF_PROCESSOR.sub("", line))
    return exported(line, EXPORTS)


def named_as_exports(text):
    """A module of a program that calls the exports, where these have the names under which they are exported."""
    for name in EXPORTS:
        text = text.replace(f"@{named_in(name)}(", f"@{name}(")
    return text


def exported(line, names):
    """A line of a module, which exports the functions of these names."""
    for name in names:
        if line.startswith("define ") and f"@{name}(" in line:
            return re.sub(r" (#\d+) \{", rf' \1 "wasm-export-name"="{name}" {{', line)
    return line


def compiled(parts, room, progress):
    """The module of WebAssembly of the parts of a module, as a file of a folder."""
    begins = heads()
    parts = ["".join(for_wasm(line, begins) for line in part.splitlines(True)) for part in parts]
    words = [*COMPILER, *LOWERING, *SECTIONS, "-x", "ir", "module.bc", "-o", "module.o"]
    objects = unproved.compiled(parts, words, room, in_top("out", "parts", CRATE), progress)
    return linked([*objects, of_c(in_top("page", "heap.c"), room)], room)


def of_c(path, room, exports=()):
    """A file in C, compiled for the module. By an attribute in C a function can't be exported without a table."""
    text, made = os.path.join(room, "c.ll"), os.path.join(room, "c.o")
    run([kit.clang(), *COMPILER, "-O2", "-S", "-emit-llvm", "-ffreestanding", "-nostdinc", "-x", "c", path, "-o", text])
    with open(text, encoding="utf-8") as file:
        lines = [exported(line, exports) for line in file]
    write_text(text, "".join(lines))
    run([kit.clang(), *COMPILER, *SECTIONS, "-x", "ir", text, "-o", made])
    return made


def linked(objects, room):
    """The module of these objects, as a file of a folder. It asks its host for nothing."""
    archive, module = os.path.join(room, "page.a"), os.path.join(room, "module.wasm")
    run([kit.path("toolchain", "bin", "llvm-ar"), "--format=gnu", "rcs", archive, *objects])
    link = [kit.path("bin", "rattle-link"), "--target", WASM, "--toolchain", kit.path("toolchain")]
    said = run([*link, "--stack", str(STACK), "-o", module, archive])
    if "imports=" in said:
        raise NotMade(f"the module asks its host for functions: {said.strip()}")
    return module


def make(is_tried=False):
    """Makes the module where a source changed, and proves the crate where it isn't only tried."""
    kit.need()
    how = "unproved" if is_tried else "proved"
    doing = "compiling the module without its proofs" if is_tried else "proving and compiling the module"
    begins = doing if is_tried else f"{doing}, {proving.how_long()}"
    with building.room("page", "page") as room:
        if made_as() == how:
            return
        total = made_of()
        with Progress("page", begins, doing) as progress:
            parts = tried(room, progress) if is_tried else proved(room, progress)
            put(compiled(parts, room, progress), f"{total} {how}")
            progress.end("compiled the module without its proofs" if is_tried else "proved and compiled the module")


def put(module, made_of_and_how):
    """Puts a module in its place."""
    if os.path.exists(f"{MODULE}.sources"):
        os.remove(f"{MODULE}.sources")
    building.keep(module, MODULE)
    write_text(f"{MODULE}.sources", made_of_and_how)
