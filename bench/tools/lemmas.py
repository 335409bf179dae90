#!/usr/bin/env python3
"""Finds a lemma by its name, and the lemmas that state something of a definition.

    python3 bench/tools/lemmas.py NAME..       prints each lemma of this name, and each whose statement names this definition, with file and line
    python3 bench/tools/lemmas.py --unused     prints each lemma that nothing names but itself: it can go

A definition is a name that a file of crates/CRATE/specs/ declares. A lemma file is a file of crates/CRATE/proofs/ that is no proof of
a function (Answers.antt, Invariants.antt, Proof.antt) and no list of modules (Lib.antt; a folder's
list, beside it, states nothing). Names are resolved by the `use` lines.
"""
import argparse
import collections
import re
import sys
from pathlib import Path

ROOT = Path(__file__).resolve().parents[2]
CRATES = ROOT / "crates"
NO_LEMMAS = {"Answers.antt", "Invariants.antt", "Proof.antt", "Lib.antt"}
DEFINED = re.compile(r"^ *(?:(?:abbrev|unfoldable) pub|pub record|pub data) ([^\s:({]+)", re.M)
LOCAL = re.compile(r"^ *(?:abbrev|unfoldable|record|data|use|module|mutual|pub (?:record|data|mod)|mod)\b")
STATED = re.compile(r"^( *)(?:pub )?([A-Za-z_][\w'≢≡-]*) : ")
NAMED = re.compile(r"[A-Za-z_][\w'≢≡-]*")
IMPORTED = re.compile(r"^(?:ghost )?use Rattle\.(\w+)\.proofs\.([\w.]+?)(?:\.\{([^}]*)\}| as (\w+));?$", re.M)
READ = re.compile(r"Laws$|^LimitNumbers$|^StepLimit$|Forms$|^Examples$|^Unique$")
WORD = re.compile(r"[A-Za-z_][\w'-]*(?:\.[A-Za-z_][\w'-]*)*")


def crates():
    """The crates of crates.txt that have definitions or lemmas, lowest first."""
    lines = [line for line in (ROOT / "crates.txt").read_text().splitlines() if line and not line.startswith("#")]
    return [line.split(":")[0] for line in lines]


def module_of(path, folder):
    return ".".join(path.relative_to(folder).with_suffix("").parts)


def definitions(crate):
    """The files of a crate's specs/: the module's name, what its first line says, and the names that it declares."""
    folder = CRATES / crate / "specs"
    for path in sorted(folder.rglob("*.antt")):
        text = path.read_text()
        if path.name != "Lib.antt":
            yield module_of(path, folder), subject(text), set(DEFINED.findall(text))


def subject(text):
    """What the comment in a file's first line says."""
    first = text.split("\n", 1)[0]
    return first[3:].strip() if first.startswith("-- ") else ""


def lemma_files(crate):
    folder = CRATES / crate / "proofs"
    return [(path, module_of(path, folder)) for path in sorted(folder.rglob("*.antt")) if path.name not in NO_LEMMAS]


def imported(text):
    """What the names of a file mean: each name, and each other name of a module, with the crate and the module of specs/."""
    names = {}
    for crate, module, listed, other in re.findall(r"^use Rattle\.(\w+)\.specs\.([\w.]+?)(?:\.\{([^}]*)\}| as (\w+))", text, re.M):
        for name in re.split(r",\s*", listed):
            names[name.split(" as ")[-1]] = (crate, module, name.split(" as ")[0])
        if other:
            names[other + "."] = (crate, module, None)
    return names


def indented(line):
    return len(line) - len(line.lstrip(" "))


def statements(text):
    """The lemmas of a file: line, name and statement. What a module above one takes belongs to its statement."""
    lines, modules, at = text.split("\n"), [], 0
    while at < len(lines):
        line = lines[at]
        if line.strip():
            modules = [(depth, head) for depth, head in modules if depth < indented(line)]
        begun, part = at, [line]
        if line.lstrip().startswith("module ") or STATED.match(line):
            while at + 1 < len(lines) and lines[at + 1].strip() and indented(lines[at + 1]) > indented(line) and not part[-1].endswith("where"):
                at += 1
                part.append(lines[at])
        whole, stated = " ".join(piece.strip() for piece in part), STATED.match(line)
        if line.lstrip().startswith("module "):
            modules.append((indented(line), whole))
        elif stated and not LOCAL.match(line) and len(stated[1]) == 2 * len(modules):
            yield begun + 1, stated[2], " ".join([head for _, head in modules] + [whole])
        at += 1


def named(statement, names):
    """The definitions that a statement names, each with its crate and module."""
    for word in WORD.findall(statement):
        first, _, rest = word.partition(".")
        if first in names:
            yield names[first]
        elif rest and first + "." in names:
            crate, module, _ = names[first + "."]
            yield crate, module, rest.split(".")[0]


def spoken_of(crate):
    """Each lemma of a crate: its file, its module, line, name, and the definitions that it names."""
    for path, module in lemma_files(crate):
        text = path.read_text()
        names = imported(text)
        for line, name, statement in statements(text):
            yield path, module, line, name, set(named(statement, names))


def uses():
    """The lemmas that files name: of each module of proofs/, as its crate and its name, the names that others import, write behind it, or give to a
    tactic."""
    found = collections.defaultdict(set)
    for path in CRATES.rglob("*"):
        if path.suffix not in (".rt", ".antt") or "out" in path.parts:
            continue
        text, own = path.read_text(), path.relative_to(CRATES).parts[0]
        for crate, module, listed, other in IMPORTED.findall(text):
            if other:
                listed = ",".join(re.findall(rf"(?<![\w'-]){other}\.([\w'≢≡-]+)", text))
            found[crate, module].update(name.split(" as ")[0].strip() for name in listed.split(","))
        for module, name in re.findall(r"crate::proofs::([\w:]+)::([\w'≢≡-]+)", text):
            found[own, module.replace("::", ".")].add(name)
    return found


def unused():
    """Prints each lemma that nothing names but itself, but for laws, limits and worked forms, which are there to be read, and for those that
    docs/PROMISES.md names. Returns how many."""
    promised = set(NAMED.findall((ROOT / "docs" / "PROMISES.md").read_text()))
    elsewhere, found = uses(), 0
    for crate in crates():
        for path, module, line, name, _ in spoken_of(crate):
            lines = path.read_text().split("\n")
            if name in promised or READ.search(path.stem) or name in elsewhere[crate, module]:
                continue
            if name not in NAMED.findall("\n".join(lines[: line - 1] + lines[end_of(lines, line, name) :])):
                print(f"{path.relative_to(ROOT)}:{line}: {name}")
                found += 1
    return found


def end_of(lines, line, name):
    """Behind which line of a file a lemma ends that begins in this one: it has its clauses, and what is indented."""
    depth, end = indented(lines[line - 1]), line
    for at, other in enumerate(lines[line:], line + 1):
        if other.strip():
            if indented(other) <= depth and NAMED.findall(other)[:1] not in ([name], ["unfolding"]) and other.strip()[0] not in "])}":
                break
            end = at
    return end


def about(names):
    """Prints the lemmas of these names and those about definitions of these names, and returns how many there are."""
    count = 0
    for crate in crates():
        for path, _, line, name, found in spoken_of(crate):
            if name in names or any(word in names for _, _, word in found):
                print(f"{path.relative_to(ROOT)}:{line}: {name}")
                count += 1
    return count


def main():
    parser = argparse.ArgumentParser(description=__doc__, formatter_class=argparse.RawDescriptionHelpFormatter)
    parser.add_argument("names", nargs="*", metavar="NAME")
    parser.add_argument("--unused", action="store_true")
    words = parser.parse_args()
    if words.unused:
        print(f"{unused()} lemmas are named nowhere else")
    elif about(words.names) == 0:
        print("no lemma has or names " + " ".join(words.names))
        return 1
    return 0


if __name__ == "__main__":
    sys.exit(main())
