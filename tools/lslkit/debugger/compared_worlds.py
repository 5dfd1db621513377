"""The worlds whose traces are compared: the examples, the accepted cases of suite/, and random ones."""
import glob
import importlib.machinery
import importlib.util
import os
import tempfile

from ..places import TOP, in_top, write_text
from ..standing import world_of_once
from . import random_worlds

PLAYED = ("once", "replay")


def examples(_):
    """The name, the folder and the world file of each example."""
    with tempfile.TemporaryDirectory() as room:
        for path in sorted(glob.glob(in_top("examples", "*", "*.world"))):
            yield os.path.basename(path), TOP, path
        for name in sorted(glob.glob(in_top("examples", "*.lsl"))):
            path = os.path.join(room, "once.world")
            write_text(path, world_of_once(name))
            yield os.path.basename(name), TOP, path


def suite():
    """The reader of suite/, which is a tool."""
    loader = importlib.machinery.SourceFileLoader("suite", in_top("tools", "suite"))
    module = importlib.util.module_from_spec(importlib.util.spec_from_loader("suite", loader))
    loader.exec_module(module)
    return module


def cases(_):
    """The same of each case that plays a world to its end, whose folder has its files."""
    reader = suite()
    for path in sorted(glob.glob(in_top("suite", "*.cases"))):
        for case in reader.cases_in(path):
            if case and not case.fails and case.status == 0 and case.words[:1] in ([it] for it in PLAYED):
                with tempfile.TemporaryDirectory() as room:
                    yield f"{os.path.basename(path)}: {case.name}", room, laid_out(case, room)


def laid_out(case, room):
    """Writes the files of a case to a folder. The path of its world."""
    for name, content in case.files:
        path = os.path.join(room, name)
        os.makedirs(os.path.dirname(path), exist_ok=True)
        with open(path, "wb") as file:
            file.write(content)
    if case.words[0] == "replay":
        return os.path.join(room, case.words[-1])
    path = os.path.join(room, "once of this.world")
    write_text(path, world_of_once(case.words[-1]))
    return path


def random_ones(seeds):
    """The same of random worlds, by their seeds."""
    for seed in seeds:
        with tempfile.TemporaryDirectory() as room:
            text, scripts = random_worlds.world(seed, room)
            for name, script in scripts.items():
                write_text(name, script)
            path = os.path.join(room, "random.world")
            write_text(path, text)
            yield f"world {seed}", room, path
