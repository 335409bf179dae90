#!/usr/bin/env python3
"""Tries the must-fail edits that the gate leaves out: those under bench/mutants/CRATE/, beside those in crates/CRATE/must-fail/.

    python3 bench/mutants/try.py [--here] [CRATE ..]
    python3 bench/mutants/try.py --fits [CRATE ..]
    python3 bench/mutants/try.py --vtmap PROGRAM [EDIT ..]

With --fits it only looks whether each edit, of both folders, still applies to the working tree: whether each `old:` text is in its file
once. Run it after every change of the code; it takes a second, and nothing is proved. Otherwise, with no names, it tries those of every
crate. It works on a scratch clone of the last commit, or with --here on a copy of the working
tree without out/, and leaves the repository as it is. There it runs `rt must-fail`, and it ends with that command's status.

What it costs: `rt must-fail` begins with what `rt check` kept on this machine, so check the crate first; otherwise each crate below
it is proved too. Then it checks the crate once more, and each edit takes 8 to 90 s of processor time, most of it a search for a proof
that fails: 6 processor minutes for the 32 of sector_disk, some 150 for all crates. On the same machine a second run tries only what
has changed. The scratch copy takes up to 5 GB in the system's folder for temporary files, and is removed at the end.

With --vtmap it tries the wrong lines of vtmap, those of bench/mutants/vtmap/: in a copy of the working tree each has to make the part of
tests/quick.py fail that its line `refused by:` names. PROGRAM is crates/vtserve/out/vtserve. It ends with 1 if one doesn't.
"""
import argparse
import re
import shutil
import subprocess
import sys
import tempfile
from pathlib import Path

EDITS = Path(__file__).resolve().parent
ROOT = EDITS.parent.parent
# A line of a case that failed, of the parts' own cases and of unittest, and how much of it is printed.
CASE = re.compile(r"\s*(?:DIFFERS |.* \.\.\. (?:FAIL|ERROR)$)")
LONGEST = 150
# The folder of edits that are no crate's: their files are named from the top.
PYTHON = EDITS / "vtmap"


def crates_with_edits():
    """The names of the folders beside this script that are crates'."""
    return sorted(folder.name for folder in EDITS.iterdir() if folder.is_dir() and folder != PYTHON)


def copy_repository(target, working_tree):
    """Puts the last commit into a folder, or the working tree as it is."""
    if working_tree:
        shutil.copytree(ROOT, target, symlinks=True, ignore=shutil.ignore_patterns("out", ".git", "__pycache__"))
    else:
        subprocess.run(["git", "clone", "-q", ROOT, target], check=True)


def add_edits(target, crate):
    """Puts the edits of a crate beside those that it has, and says how many it has then."""
    folder = target / "crates" / crate / "must-fail"
    folder.mkdir(exist_ok=True)
    for edit in sorted((target / "bench" / "mutants" / crate).glob("*.edit")):
        if (folder / edit.name).exists():
            sys.exit(f"{crate}: must-fail/ has an edit {edit.name} already")
        shutil.copy(edit, folder)
    return len(list(folder.glob("*.edit")))


def planted(edit, crate):
    """The texts with an edit of the files of its crate, by their paths, or why it doesn't apply."""
    path, old, texts = None, None, {}
    for line in edit.read_text().splitlines():
        word, _, rest = line.partition(":")
        rest = rest.removeprefix(" ")
        if word == "file":
            path = crate / rest.strip()
        elif word == "old":
            old = rest
        elif word == "new":
            if path not in texts and not path.is_file():
                return f"there is no {path.relative_to(crate)}"
            text = texts.get(path) or path.read_text()
            if text.count(old) != 1:
                return f"{text.count(old)} times in {path.relative_to(crate)}: {old.strip()}"
            texts[path] = text.replace(old, rest)
    return texts or "it changes nothing"


def misfits(names):
    """Prints the edits of these crates that don't apply, and returns how many."""
    count = 0
    for name in names:
        crate = ROOT if name == PYTHON.name else ROOT / "crates" / name
        for edit in sorted([*(EDITS / name).glob("*.edit"), *(crate / "must-fail").glob("*.edit")]):
            why = planted(edit, crate)
            if isinstance(why, str):
                count += 1
                print(f"{edit.relative_to(ROOT)}: {why}")
    print(f"{count} edits don't apply")
    return count


def not_refused(target, program, names):
    """Tries edits of vtmap in a copy, and returns how many their parts of the quick tests don't refuse."""
    count = 0
    for name in names:
        edit = PYTHON / f"{name}.edit"
        part = re.search("^refused by: (.*)$", edit.read_text(), re.M)[1]
        texts = planted(edit, target)
        if isinstance(texts, str):
            sys.exit(f"{name}: {texts}")
        before = {path: path.read_text() for path in texts}
        for path, text in texts.items():
            path.write_text(text)
        words = [sys.executable, "tests/quick.py", "--program", program, part]
        child = subprocess.run(words, cwd=target, capture_output=True, text=True, check=False)
        for path, text in before.items():
            path.write_text(text)
        cases = sorted({line.strip()[:LONGEST] for line in child.stdout.splitlines() if CASE.match(line)})
        count += child.returncode != 1 or not cases
        print(f"{'NOT REFUSED' if child.returncode != 1 or not cases else 'refused'} {name}: {part}", *cases[:3], sep="\n        ", flush=True)
    print(f"{len(names)} wrong lines of vtmap, {count} not refused")
    return count


def main():
    known = crates_with_edits()
    parser = argparse.ArgumentParser(description=__doc__, formatter_class=argparse.RawDescriptionHelpFormatter)
    parser.add_argument("--here", action="store_true", help="try the working tree, and not the last commit")
    parser.add_argument("--fits", action="store_true", help="only see that each edit applies to the working tree")
    parser.add_argument("--vtmap", metavar="PROGRAM", help="try the wrong lines of vtmap, by the quick tests")
    parser.add_argument("crates", nargs="*", metavar="CRATE", help="a folder of bench/mutants; all of them if none is named")
    words = parser.parse_args()
    if words.vtmap:
        known = sorted(edit.stem for edit in PYTHON.glob("*.edit"))
    unknown = [name for name in words.crates if name not in known]
    if unknown:
        parser.error(f"not in bench/mutants: {' '.join(unknown)}")
    names = words.crates or known
    if words.fits:
        crates = sorted(folder.name for folder in (ROOT / "crates").iterdir())
        return 1 if misfits(words.crates or [*crates, PYTHON.name]) else 0
    with tempfile.TemporaryDirectory(prefix="edits-") as scratch:
        target = Path(scratch) / "copy"
        copy_repository(target, words.here or words.vtmap)
        if words.vtmap:
            Path(scratch).chmod(0o755)
            return 1 if not_refused(target, str(Path(words.vtmap).resolve()), names) else 0
        for name in names:
            print(f"{name}: {add_edits(target, name)} edits", flush=True)
        return subprocess.run(["rt", "must-fail", *names], cwd=target).returncode


if __name__ == "__main__":
    sys.exit(main())
