"""A package's files as Debian's policy wants them, and what a Debian package says of itself."""
import hashlib
import os
import re
import textwrap
import time

from . import about, contents
from .archives import Entry, moved, zipped
from .places import bytes_of, in_top, text_of

MAINTAINER = "Dishhollow maintainers <maintainers@users.noreply.dishhollow.example>"
NAME = contents.NAME
SHARE, DOC, VIM = f"usr/share/{NAME}", f"usr/share/doc/{NAME}", "usr/share/vim/vimfiles"
# Where a package's files are: the first beginning of a name that fits counts. A file that none fits has its content
# in one of those that are made below.
PLACES = (
    ("docs/", f"{DOC}/docs/"),
    ("README.md", f"{DOC}/README.md"),
    ("libexec/", f"usr/lib/{NAME}/"),
    ("completions/lsl.bash", "usr/share/bash-completion/completions/lsl"),
    ("completions/", "usr/share/zsh/vendor-completions/"),
    *((it, f"{SHARE}/{it}") for it in ("ABOUT", "lsl", "editors/", "examples/", "page/", "suite/", "tools/")),
)
LINKS = {
    "usr/bin/lsl": f"{SHARE}/lsl",
    f"{SHARE}/libexec": f"usr/lib/{NAME}",
    **{f"{DOC}/{it}": f"{SHARE}/{it}" for it in ("examples", "page")},
    **{f"{VIM}/{it}/lsl.vim": f"{SHARE}/editors/vim/{it}/lsl.vim" for it in ("ftdetect", "ftplugin", "syntax")},
}
SECTION = re.compile(r"(?ms)^## \[(\S+)\] - (\S+)\n(.*?)(?=^## |\Z)")
ITEM = re.compile(r"(?ms)^- (.*?)(?=^- |^$|\Z)")


def entries(files, libc):
    """The files of a Debian package, made of those of a package."""
    made = {moved(name, PLACES): it for name, it in files.items() if moved(name, PLACES)}
    made.update((name, Entry(link=os.path.relpath(to, os.path.dirname(name)))) for name, to in LINKS.items())
    made.update((f"usr/share/{it}.gz", Entry(zipped(files[it].data))) for it in files if it.startswith("man/"))
    made[f"{DOC}/changelog.gz"] = Entry(zipped(changelog().encode()))
    made[f"{DOC}/copyright"] = Entry(copyright_of(files))
    return {**made, **of_control(made, libc)}


def of_control(files, libc):
    """The folder `DEBIAN`."""
    size = sum(len(it.data) // 1024 + 1 for it in files.values())
    said = {"name": NAME, "version": about.version(), "maintainer": MAINTAINER, "libc": libc, "size": size}
    plain = sorted((name, it.data) for name, it in files.items() if it.link is None)
    sums = "".join(f"{hashlib.md5(data).hexdigest()}  {name}\n" for name, data in plain)
    made = {f"DEBIAN/{it}": Entry(bytes_of(in_top("package", it)), True) for it in ("postinst", "prerm")}
    made["DEBIAN/control"] = Entry(text_of("package", "control").format(**said).encode())
    return {**made, "DEBIAN/md5sums": Entry(sums.encode())}


def copyright_of(files):
    """The licence, and those of the libraries of which code is in the program."""
    parts = [f"{NAME.capitalize()}\n\n{files['LICENSE'].data.decode()}"]
    for name, it in sorted(files.items()):
        if name.startswith("licences/"):
            library = name.partition("/")[2]
            parts.append(f"The programs have code of the library {library}, whose licence is:\n\n{it.data.decode()}")
    return "\n----\n\n".join(parts).encode()


def changelog():
    """CHANGELOG.md in Debian's form."""
    return "\n\n".join(map(change, SECTION.findall(text_of("CHANGELOG.md")))) + "\n"


def change(section):
    version, day, text = section
    date = time.strftime("%a, %d %b %Y 00:00:00 +0000", time.strptime(day, "%Y-%m-%d"))
    items = [" ".join(it.split()) for it in ITEM.findall(text)]
    items = [textwrap.fill(it, 76, initial_indent="  * ", subsequent_indent="    ") for it in items]
    return "\n".join([f"{NAME} ({version}) unstable; urgency=medium", "", *items, "", f" -- {MAINTAINER}  {date}"])
