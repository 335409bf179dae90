#!/usr/bin/env python3
"""Checks the names in docs/PROMISES.md, docs/TESTED.md and the crates' own pages against the crates: functions and the
clauses beside them, lemmas, tests, lines of scripts and must-fail edits.

    python3 tests/promises.py

`crate::Type::function` (`clause`, ..) is a function of that crate whose contract has these clauses, lemma `name` of
`crate` a lemma in its proofs/, `tests_..` (`name`, ..) tests of that crate, `tests_..` (rows `name`, ..) rows of the
tables that its tests run, `.._runs` (lines `word`, ..) lines of its script that begin with the word, `.._runs` (part
`name`, lines `word`, ..) and part `name` of `.._runs` (lines `word`, ..) those of that part, and `.._runs` (blocks
`name`, ..) functions of the models that write such lines. The table of wrong bodies in TESTED.md has to name just the
edits in crates/*/must-fail, and the section Trusted in PROMISES.md just the ported crates on which a crate of
crates.txt stands.

In a crate's own page (crates/NAME/README.md) `function` (`clause`, ..) is a function of this crate, `NAME.rt` a file of
its src/, `specs/NAME.antt` one of its definitions, and each other name is a word of some crate's src/ or specs/. Blocks
of code aren't looked at. It prints what it doesn't find, and ends with 1 then.
"""
import functools
import re
import sys
from collections.abc import Iterator
from pathlib import Path

ROOT = Path(__file__).resolve().parents[1]
CRATES = ROOT / "crates"
NAME = r"`((?:\w+::)+\w+)`"
LIST = r"(?: \(((?:`\w+`(?:, )?)+)\))?"


def fields_of(crate: str, record: str) -> list[str]:
    """The names of the fields of a record in a crate's specs/."""
    texts = [specs.read_text() for specs in (CRATES / crate / "specs").rglob("*.antt")]
    bodies = [body for text in texts for body in re.findall(rf"^ *pub record {record} .*\n(?:.+\n)*", text, re.M)]
    return [field for body in bodies for field in re.findall(r"^ +pub (\w+) :", body, re.M)]


@functools.cache
def functions_of(crate: str) -> dict[str, list[str]]:
    """The names of a crate's functions, each with the clauses of all functions of that name. A clause that is a record
    counts as its fields too."""
    found: dict[str, list[str]] = {}
    for source in (CRATES / crate / "src").rglob("*.rt"):
        clauses: list[str] | None = None
        for line in source.read_text().splitlines():
            declared = re.match(r"\s*(?:pub(?:\(\w+\))? )?(?:const )?fn (\w+)", line)
            if declared:
                clauses = found.setdefault(declared.group(1), [])
            clause = re.match(r"\s*ensures (\w+) \{", line)
            if clause and clauses is not None:
                clauses.append(clause.group(1))
            record = re.match(r"\s*ensures (?:\w+ )?\{ (?:\([^()]*\) → )*(\w+)", line)
            if record and clauses is not None:
                clauses += fields_of(crate, record.group(1))
    return found


@functools.cache
def lemmas_of(crate: str) -> set[str]:
    """The names of a crate's public lemmas."""
    texts = [proof.read_text() for proof in (CRATES / crate / "proofs").rglob("*.antt")]
    return {name for text in texts for name in re.findall(r"^ *pub ([\w-]+) :", text, re.M)}


@functools.cache
def tests_of(crate: str) -> set[str]:
    """The names of a crate's tests."""
    texts = [source.read_text() for source in (CRATES / crate / "src").rglob("*.rt")]
    return {name for text in texts for name in re.findall(r"#\[test\]\s*(?:#\[[^\n]*\]\s*)*(?:pub )?fn (\w+)", text)}


@functools.cache
def rows_of(crate: str) -> set[str]:
    """The names of the rows of a crate's tables, which end where a name has a comma."""
    texts = [source.read_text() for source in (CRATES / crate / "src").rglob("*.rt")]
    return {name for text in texts for name in re.findall(r'^ *name: "(\w+)', text, re.M)}


@functools.cache
def words_of(crate: str, part: str) -> set[str]:
    """The words with which lines of a script begin, or of a part of it, each call of a line that has several."""
    found: set[str] = set()
    now = ""
    for line in (CRATES / crate / "stdin").read_text().splitlines():
        if line.startswith("part "):
            now = line.removeprefix("part ")
        elif part in ("", now):
            found |= {call.split(" ")[0] for call in line.split("; ")}
    return found


@functools.cache
def blocks_of(crate: str) -> set[str]:
    """The names of the functions of the models that write a script: of modules `NAME_..` where `NAME_script` has it as
    its crate."""
    models = ROOT / "model"
    scripts = [path for path in models.glob("*_script.py") if f'= "{crate}"' in path.read_text()]
    names = [script.stem.removesuffix("script") for script in scripts]
    texts = [model.read_text() for name in names for model in models.glob(f"{name}*.py")]
    return {name for text in texts for name in re.findall(r"^def (\w+)\(", text, re.M)}


def listed(text: str | None) -> list[str]:
    return re.findall(r"`(\w+)`", text or "")


def missing_in(text: str) -> Iterator[str]:
    """What the page names and the crates don't have."""
    for name, clauses in re.findall(NAME + LIST, text):
        crate, function = name.split("::")[0], name.split("::")[-1]
        if not (CRATES / crate).is_dir():
            yield f"crate {crate} ({name})"
        elif function[0].islower():
            known = functions_of(crate).get(function)
            if known is None:
                yield f"function {name}"
            else:
                yield from (f"clause {clause} of {name}" for clause in listed(clauses) if clause not in known)
    for name, crate in re.findall(r"lemma `(\w+)` of `(\w+)`", text):
        if name not in lemmas_of(crate):
            yield f"lemma {name} of {crate}"
    for table, rows in re.findall(r"^\| Lemma of `(\w+)` \|.*\n\|-.*\n((?:\|.*\n)+)", text, re.M):
        names = [name for row in rows.splitlines() for name in listed(row.split("|")[1])]
        yield from (f"lemma {name} of {table}" for name in names if name not in lemmas_of(table))
    for crate, tests in re.findall(r"`(tests_\w+)` \(((?:`\w+`(?:, )?)+)\)", text):
        yield from (f"test {test} of {crate}" for test in listed(tests) if test not in tests_of(crate))
    for crate, rows in re.findall(r"`(tests_\w+)` \(rows ((?:`\w+`(?:, )?)+)\)", text):
        yield from (f"row {row} of {crate}" for row in listed(rows) if row not in rows_of(crate))
    for part, crate, words in re.findall(r"(?:part `(\w+)` of )?`(\w+_runs)` \(lines ((?:`\w+`(?:, )?)+)\)", text):
        yield from (f"line {word} of {crate} {part}" for word in listed(words) if word not in words_of(crate, part))
    for crate, part, words in re.findall(r"`(\w+_runs)` \(part `(\w+)`, lines ((?:`\w+`(?:, )?)+)\)", text):
        yield from (f"line {word} of {crate} {part}" for word in listed(words) if word not in words_of(crate, part))
    for crate, blocks in re.findall(r"`(\w+_runs)` \(blocks ((?:`\w+`(?:, )?)+)\)", text):
        yield from (f"block {block} of {crate}" for block in listed(blocks) if block not in blocks_of(crate))


@functools.cache
def words_of_crates() -> set[str]:
    """The words of all sources and definitions, and the names of the crates."""
    paths = [*CRATES.glob("*/src/**/*.rt"), *CRATES.glob("*/specs/**/*.antt")]
    names = {path.name for path in CRATES.iterdir()}
    return names.union(*(re.findall(r"\w+", path.read_text()) for path in paths))


def missing_in_crate(page: Path) -> Iterator[str]:
    """What a crate's own page names and the crates don't have."""
    crate = page.parent.name
    text = re.sub(r"^```.*?^```", "", page.read_text(), flags=re.M | re.S)
    for name, clauses in re.findall(r"`((?:\w+::)*\w+)` \(((?:`\w+`(?:, )?)+)\)", text):
        known = functions_of(crate).get(name.split("::")[-1])
        if known is not None:
            yield from (f"clause {clause} of {crate}::{name}" for clause in listed(clauses) if clause not in known)
    for name in sorted(set(re.findall(r"`([\w:./]+)(?:<\w>)?`", text))):
        if re.fullmatch(r"\w+\.rt|specs/\w+\.antt", name):
            if not (page.parent / ("" if "/" in name else "src") / name).exists():
                yield f"file {name} of {crate}"
        elif re.fullmatch(r"(?:\w+::)*[A-Za-z_]\w*", name):
            yield from (f"name {name} ({crate})" for part in name.split("::") if part not in words_of_crates())


def ported() -> set[str]:
    """The crates of the kit that crates.txt names."""
    text = (ROOT / "crates.txt").read_text()
    lines = [line.partition(":") for line in text.splitlines() if line and not line.startswith("#")]
    return {name for _, _, below in lines for name in below.split()} - {name.split()[0] for name, _, _ in lines}


def untrusted(text: str) -> Iterator[str]:
    """How the section Trusted differs from the ported crates that are used."""
    section = re.search(r"^## Trusted\n.*?\(((?:`\w+`(?:, )?)+)\)", text, re.M | re.S)
    said = set(listed(section.group(1) if section else None))
    yield from (f"ported crate {name} in the section Trusted" for name in ported() - said)
    yield from (f"use of the ported crate {name}, which the section Trusted names," for name in said - ported())


def untried(text: str) -> Iterator[str]:
    """How the table of wrong bodies differs from the edits that the gate tries."""
    table = re.search(r"^\| Crate \| Edit \|.*\n\|-.*\n((?:\|.*\n)+)", text, re.M)
    said, crate = set(), ""
    for row in table.group(1).splitlines() if table else []:
        first, edit = (cell.strip(" `") for cell in row.split("|")[1:3])
        crate = first or crate
        said.add((crate, edit))
    kept = {(path.parts[-3], path.stem) for path in CRATES.glob("*/must-fail/*.edit")}
    yield from (f"must-fail edit {edit} of {crate} in TESTED.md" for crate, edit in kept - said)
    yield from (f"must-fail edit {edit} of {crate}, which TESTED.md names," for crate, edit in said - kept)


def main() -> None:
    promises, tested = ((ROOT / "docs" / name).read_text() for name in ("PROMISES.md", "TESTED.md"))
    of_crates = {name for page in sorted(CRATES.glob("*/README.md")) for name in missing_in_crate(page)}
    missing = sorted({*missing_in(promises), *missing_in(tested), *untrusted(promises), *untried(tested), *of_crates})
    for name in missing:
        print(name)
    pages = "docs/PROMISES.md, docs/TESTED.md and the crates' pages"
    wrong = f"{len(missing)} names of {pages} aren't in the crates"
    print(wrong if missing else f"each name of {pages} is in the crates")
    sys.exit(1 if missing else 0)


if __name__ == "__main__":
    main()
