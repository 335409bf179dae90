"""What the pages say of the crates: part of `python3 tests/documents.py --lists`.

- ARCHITECTURE.md's table of names that stand for two types or more names just those that do, each with its crates. A
  type is a struct, an enum, a trait or an alias of a module, or a record or a data type of specs/ without parameters.
  Crates of scripts and tests don't count.
- WHERE.md's names that change with their crate are names of that crate still.
- ARCHITECTURE.md has a row for each crate, the files that it would have read are there, and CONTRIBUTING.md names no
  other crate where it says what they cost.
- Each size in STEPS.md's table is that of its constant.
"""
import re
from collections import defaultdict
from collections.abc import Iterator
from pathlib import Path

ROOT = Path(__file__).resolve().parents[1]
CRATES = ROOT / "crates"
OF_TESTS = re.compile(r"\w+_runs|script_\w+|tests_\w+")
TYPE = re.compile(r"^\s*(?:pub(?:\(\w+\))? )?(?:struct|enum|trait) (\w+)|^(?:pub(?:\(\w+\))? )?type (\w+)", re.M)
DATA = re.compile(r"^ *pub (?:record|data) (\w+) : Type 0", re.M)


def texts(crate: Path, folder: str, suffix: str) -> Iterator[str]:
    for path in (crate / folder).rglob(f"*.{suffix}"):
        yield path.read_text(encoding="utf-8")


def types_of(crate: Path) -> set[str]:
    """The names of the types that a crate declares."""
    declared = {one or other for text in texts(crate, "src", "rt") for one, other in TYPE.findall(text)}
    return declared | {name for text in texts(crate, "specs", "antt") for name in DATA.findall(text)}


def in_two_crates() -> dict[str, set[str]]:
    """The names that two crates or more declare, and these."""
    found: dict[str, set[str]] = defaultdict(set)
    for crate in CRATES.iterdir():
        if crate.is_dir() and not OF_TESTS.fullmatch(crate.name):
            for name in types_of(crate):
                found[name].add(crate.name)
    return {name: crates for name, crates in found.items() if len(crates) > 1}


def rows(page: str, heading: str) -> list[list[str]]:
    """The rows of the first table of a page that begins with these cells."""
    text = (ROOT / page).read_text(encoding="utf-8")
    table = re.search(rf"^{re.escape(heading)}\n\|[-|]+\n((?:\|.*\n)+)", text, re.M)
    lines = table.group(1).splitlines() if table else []
    return [[cell.strip() for cell in line.strip("|").split("|")] for line in lines]


def twice() -> Iterator[str]:
    page, found = "docs/ARCHITECTURE.md", in_two_crates()
    said = {row[0].strip("`"): set(re.findall(r"\(`(\w+)`\)", row[1])) for row in rows(page, "| Name | Is |")}
    for name in sorted(found.keys() | said.keys()):
        if found.get(name, set()) != said.get(name, set()):
            crates = ", ".join(sorted(found.get(name, set()))) or "no two crates"
            yield f"{page}: {name} is a type of {crates}, where its table says {sorted(said.get(name, set()))}"


def renamed() -> Iterator[str]:
    page = "docs/WHERE.md"
    for crates, names in rows(page, "| Crate | Names |"):
        folders = [CRATES / name for name in re.findall(r"`(\w+)`", crates)]
        known = {
            word
            for folder in folders
            for part, suffix in (("src", "rt"), ("specs", "antt"))
            for text in texts(folder, part, suffix)
            for word in re.findall(r"\w+", text)
        }
        for entry in names.split(". "):
            for name in re.findall(r"`(\w+)`", entry.partition(":")[0]):
                if name not in known:
                    yield f"{page}: {crates} has no {name} that could be renamed"


def explained() -> Iterator[str]:
    known = {path.name for path in CRATES.iterdir() if path.is_dir()}
    said = {name for row in rows("docs/ARCHITECTURE.md", "| Layer | Crate | Does |") for name in names(row[1])}
    for name in sorted(known ^ said):
        yield f"docs/ARCHITECTURE.md: its table of crates and crates/ don't agree about {name}"
    for row in rows("docs/CONTRIBUTING.md", "| Crate | MB of proof | Proof, tests and programs | Edits |"):
        if re.fullmatch(r"`\w+`", row[0]) and not names(row[0]) <= known:
            yield f"docs/CONTRIBUTING.md: {row[0]} is no crate"
    text = (ROOT / "docs" / "ARCHITECTURE.md").read_text(encoding="utf-8")
    for name in re.findall(r"^\d+\. `(crates/[\w/.]+)`", text, re.M):
        if not (ROOT / name).is_file():
            yield f"docs/ARCHITECTURE.md: no file {name}, which is to be read"


def names(cell: str) -> set[str]:
    return set(re.findall(r"`(\w+)`", cell))


def spelled(size: int) -> set[str]:
    """How a page may write a size."""
    units = {"KiB": 1 << 10, "MiB": 1 << 20}
    return {f"{size:,}", *(f"{size // unit} {name}" for name, unit in units.items() if size % unit == 0)}


def steps() -> Iterator[str]:
    page, text = "docs/STEPS.md", ""
    for work, step, constants, _ in rows("docs/STEPS.md", "| Work | A step | Constant, in | Why this size |"):
        files = [CRATES / name for name in re.findall(r"`(\w+/src/\w+\.rt)`", constants)]
        folders = {path for file in files for path in file.parent.glob("*.rt") if f"{path.name}`" in constants}
        text = "".join(path.read_text(encoding="utf-8") for path in sorted(folders)) or text
        for name in re.findall(r"`([A-Z_]+)`", constants):
            found = re.search(rf"\bconst {name}: \w+ = ([\d_]+);", text)
            if not found or not any(size in f"{work} {step}" for size in spelled(int(found.group(1)))):
                yield f"{page}: {name} isn't the size that its row says"
