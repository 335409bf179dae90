#!/usr/bin/env python3
"""Which crates to copy to use some of them in a repository of your own.

    python3 bench/tools/copy_crates.py CRATE...                  prints the folders and the lines of crates.txt
    python3 bench/tools/copy_crates.py CRATE... --into FOLDER    copies them there

It takes the crates below the ones that are named too, by crates.txt. Tests and must-fail edits aren't copied. FOLDER/crates.txt gets
the lines that it lacks; add one for your own crate after them.
"""
import argparse
import shutil
from pathlib import Path

ROOT = Path(__file__).resolve().parents[2]


def crates_below():
    """The crates of the repository, lowest first, each with those that it depends on."""
    lines = [line for line in (ROOT / "crates.txt").read_text().splitlines() if line and not line.startswith("#")]
    return {name: rest.split() for name, rest in (line.split(":", 1) for line in lines)}


def needed(names, below):
    """These crates and all below them that are the repository's, lowest first."""
    found, left = set(), list(names)
    while left:
        name = left.pop()
        if name in below and name not in found:
            found.add(name)
            left += below[name]
    return [name for name in below if name in found]


def copy(names, below, goal):
    """Puts the crates and their lines into a repository."""
    listed = goal / "crates.txt"
    text = listed.read_text() if listed.exists() else ""
    if text and not text.endswith("\n"):
        text += "\n"
    for name in names:
        shutil.copytree(ROOT / "crates" / name, goal / "crates" / name, ignore=shutil.ignore_patterns("out", "must-fail"), dirs_exist_ok=True)
        if not any(line.startswith(f"{name}:") for line in text.splitlines()):
            text += f"{name}: {' '.join(below[name])}".rstrip() + "\n"
    listed.write_text(text)


def main():
    below = crates_below()
    parser = argparse.ArgumentParser(description=__doc__, formatter_class=argparse.RawDescriptionHelpFormatter)
    parser.add_argument("--into", type=Path, metavar="FOLDER", help="copy them to this repository")
    parser.add_argument("crates", nargs="+", metavar="CRATE", choices=below)
    words = parser.parse_args()
    names = needed(words.crates, below)
    if words.into:
        copy(names, below, words.into)
    for name in names:
        print(f"crates/{name}    {name}: {' '.join(below[name])}")


if __name__ == "__main__":
    main()
