"""Makes a scratch repository in which a program of this folder is built, outside of the product's own.

    python3 bench/tools/scratch.py FOLDER NAME CRATE...

FOLDER gets copies of the product's crates among CRATE... and of all that they stand on, and the folder crates/NAME/src of a new
crate NAME that stands on CRATE... Libraries that `rt run` left in the product's out/ are taken with them, so that only the new
crate is proved if none of their files has changed since; `rt` compares them, and proves the others again.
"""
import os
import pathlib
import shutil
import sys

TOP = pathlib.Path(__file__).resolve().parents[2]


def stands_on():
    """The crates of the product, lowest first, each with those that it stands on."""
    lines = [line for line in (TOP / "crates.txt").read_text().splitlines() if line and not line.startswith("#")]
    return {name: rest.split() for name, rest in (line.split(":") for line in lines)}


def wanted(crates, below):
    """These crates, where they are the product's, and all below them."""
    found = set()
    for crate in crates:
        if crate in below and crate not in found:
            found |= {crate} | wanted(below[crate], below)
    return found


def link(source, goal):
    """A second name of a file, or a copy of it on another file system."""
    try:
        os.link(source, goal)
    except OSError:
        shutil.copy2(source, goal)


def copy(crate, goal):
    """The crate's files, and the library that was built of them, if there is one."""
    source = TOP / "crates" / crate
    shutil.copytree(source, goal, ignore=shutil.ignore_patterns("out"))
    if (source / "out" / "rlib" / "stamp").is_file():
        shutil.copytree(source / "out" / "rlib", goal / "out" / "rlib", copy_function=link)


def main(folder, name, *crates):
    below = stands_on()
    work = pathlib.Path(folder)
    needed = wanted(crates, below)
    copied = [crate for crate in below if crate in needed]
    for crate in copied:
        copy(crate, work / "crates" / crate)
    (work / "crates" / name / "src").mkdir(parents=True)
    lines = [f"{crate}: {' '.join(below[crate])}" for crate in copied] + [f"{name}: {' '.join(crates)}"]
    (work / "crates.txt").write_text("\n".join(lines) + "\n")
    shutil.copy(TOP / "HANDLES", work / "HANDLES")


main(*sys.argv[1:])
