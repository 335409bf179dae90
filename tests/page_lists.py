"""What the pages list, checked against what there is: `python3 tests/documents.py --lists`.

- The section Trusted of PROMISES.md names just the ported crates of crates.txt, and those below them that the build
  names: the libraries of the kit, and those built in this clone.
- bench/README.md names each folder of bench/, METHOD.md each of its scripts and tools, model/README.md each model.
- PROOFS.md counts functions and proofs within a tenth, and docs/pictures/crates.svg is what tools/floors.py draws.
- What ARCHITECTURE.md, WHERE.md, STEPS.md and CONTRIBUTING.md list of crates, types and constants is so
  (crate_names.py).
- The newest version of CHANGELOG.md is vtmap's, its versions have dates, and its lines at most forty words.
- Each page has at most the words of LIMITS, as `wc -w` counts them, and a cell of PROMISES.md at most sixty.
- Each link of a page leads to a file, and to a heading where it names one.
- What a page for users calls proved has a link to the rows of PROMISES.md that say it, or to README's section on it,
  whose functions PROMISES.md names.
"""
import re
import shutil
import subprocess
import sys
from collections.abc import Iterator
from pathlib import Path

import crate_names

ROOT = Path(__file__).resolve().parents[1]
sys.path.append(str(ROOT / "tools"))
import floors  # noqa: E402

# The most words of a page.
LIMITS = {
    "README.md": 1_100,
    "CHANGELOG.md": 3_000,
    "bench/README.md": 4_500,
    "bench/METHOD.md": 3_000,
    "docs/ARCHITECTURE.md": 4_000,
    "docs/CONTRIBUTING.md": 4_500,
    "docs/DECISIONS.md": 10_000,
    "docs/PROMISES.md": 9_000,
    "docs/STEPS.md": 1_500,
    "docs/TESTED.md": 4_000,
}
MOST_IN_LINE = 40
MOST_IN_CELL = 60
# Pages whose readers don't read proofs.
FOR_USERS = ["README.md", "CHANGELOG.md", "docs/HTTP.md", "docs/DEPLOYING.md", "docs/COMMANDS.md", "docs/OFFICE.md"]
# What the C library and std are made of: the section Trusted says std.
OF_STD = {"core", "io", "os", "std", "std_alloc", "std_heap", "std_io"}


def read(name: str) -> str:
    return (ROOT / name).read_text(encoding="utf-8")


def words(text: str) -> int:
    return len(text.split())


def names(text: str) -> set[str]:
    """The words of a text that stand in backquotes."""
    return set(re.findall(r"`([\w-]+)`", text))


# ---- Trusted


def below(folder: Path) -> set[str]:
    """The libraries that a built library names."""
    return {path.name for path in (folder / "below").glob("*")}


def built_on(ported: set[str]) -> set[str]:
    """These crates, those that the built libraries of this clone name, and the crates of the kit below them."""
    built = [below(path) for path in (ROOT / "crates").glob("*/out/rlib/*.rlib")]
    found = ported.union(*built) - {name for name, _ in crates()}
    if shutil.which("rt"):
        page = subprocess.run(["rt", "doc"], capture_output=True, text=True, check=True).stdout.strip()
        left = list(found)
        while left:
            new = below(Path(page).parent / "rlibs" / f"{left.pop()}.rlib") - found
            left += new
            found |= new
    return found - OF_STD


def crates() -> list[tuple[str, list[str]]]:
    """The lines of crates.txt."""
    lines = [line.partition(":") for line in read("crates.txt").splitlines() if line and line[0] != "#"]
    return [(name.split()[0], stands_on.split()) for name, _, stands_on in lines]


def trusted() -> Iterator[str]:
    section = re.search(r"^## Trusted\n(.*?)(?=^## |\Z)", read("docs/PROMISES.md"), re.M | re.S)
    lists = re.findall(r"\(((?:`\w+`(?:, )?)+)\)", section.group(1)) if section else []
    if len(lists) != 2:
        yield "docs/PROMISES.md: Trusted has two lists in parentheses: the crates of crates.txt, and those below them"
        return
    named, further = (names(text) for text in lists)
    ported = {name for _, stands_on in crates() for name in stands_on} - {name for name, _ in crates()}
    for name in sorted(ported ^ named):
        yield f"docs/PROMISES.md: Trusted and crates.txt don't agree about {name}"
    for name in sorted(built_on(ported) - named - further):
        yield f"docs/PROMISES.md: Trusted lacks {name}, which a library of the build names"


# ---- folders, scripts, counts


def listed() -> Iterator[str]:
    folders = {path.name for path in (ROOT / "bench").iterdir() if path.is_dir() and path.name != "__pycache__"}
    told = set(re.findall(r"^\| `(\w+)/` \|", read("bench/README.md"), re.M))
    for name in sorted(folders ^ told):
        yield f"bench/README.md: its table and bench/ don't agree about the folder {name}"
    method = read("bench/METHOD.md")
    speed = ROOT / "bench" / "speed"
    for path in sorted([*speed.glob("*.py"), *speed.glob("*/run.*"), *(ROOT / "bench" / "tools").glob("*.*")]):
        if path.name not in method or (path.parent.parent == speed and f"{path.parent.name}/{path.name}" not in method):
            yield f"bench/METHOD.md doesn't name {path.relative_to(ROOT)}"
    for path in sorted((ROOT / "model").glob("*.py")):
        if path.name not in read("model/README.md"):
            yield f"model/README.md doesn't name {path.name}"


def counted() -> Iterator[str]:
    sources = [path.read_text(encoding="utf-8") for path in (ROOT / "crates").glob("*/src/**/*.rt")]
    functions = sum(len(re.findall(r"^\s*(?:pub(?:\(\w+\))? )?(?:const )?fn \w+", text, re.M)) for text in sources)
    kept = (ROOT / "crates").glob("*/proofs/**/*.antt")
    proofs = len({path.parent for path in kept if path.name in ("Answers.antt", "Invariants.antt")})
    found = re.search(r"Of some ([\d,]+) functions ([\d,]+) have one", read("docs/PROOFS.md"))
    told = [int(number.replace(",", "")) for number in found.groups()] if found else [0, 0]
    both = ((functions, "functions"), (proofs, "functions with a proof file"))
    for number, (count, what) in zip(told, both, strict=True):
        if abs(number - count) > count / 10:
            yield f"docs/PROOFS.md: some {number} {what}, and there are {count}"
    if not floors.is_drawn():
        yield "docs/pictures/crates.svg isn't the drawing of crates.txt: python3 tools/floors.py writes it"


# ---- words, lines, links


def long() -> Iterator[str]:
    for page, most in LIMITS.items():
        count = words(read(page))
        if count > most:
            yield f"{page} has {count} words, of {most}"
    for number, line in enumerate(read("docs/PROMISES.md").splitlines(), 1):
        if line.startswith("|") and max(words(cell) for cell in line.split("|")) > MOST_IN_CELL:
            yield f"docs/PROMISES.md:{number}: a cell of more than {MOST_IN_CELL} words"
    newest = re.search(r"^## ([\d.]+)", read("CHANGELOG.md"), re.M)
    if not newest or f'VERSION = "{newest.group(1)}"' not in read("vtmap/__init__.py"):
        yield "CHANGELOG.md: its newest version isn't that of vtmap"
    for number, line in enumerate(read("CHANGELOG.md").splitlines(), 1):
        if line.startswith("## ") and not re.search(r"\b20\d\d\b", line):
            yield f"CHANGELOG.md:{number}: a version without a date"
        if line.lstrip().startswith("- ") and words(line) - 1 > MOST_IN_LINE:
            yield f"CHANGELOG.md:{number}: a line of {words(line) - 1} words, of {MOST_IN_LINE}"


def without_blocks(page: Path) -> str:
    return re.sub(r"^```.*?^```", "", page.read_text(encoding="utf-8"), flags=re.M | re.S)


def anchors(page: Path) -> set[str]:
    """The names of a page's headings in links, as GitHub makes them."""
    headings = re.findall(r"^#+ (.+)$", without_blocks(page), re.M)
    plain = [re.sub(r"\[([^\]]*)\]\([^)]*\)", r"\1", heading).lower() for heading in headings]
    return {re.sub(r"[^\w -]", "", heading).replace(" ", "-") for heading in plain}


def broken() -> Iterator[str]:
    folders = ("*.md", "docs/*.md", "bench/**/*.md", "model/*.md", "crates/*/*.md", "tests/**/*.md")
    for page in sorted(path for folder in folders for path in ROOT.glob(folder) if "out" not in path.parts):
        for target in re.findall(r"\]\((?!https?:|mailto:)([^)\s]+)\)", without_blocks(page)):
            name, _, anchor = target.partition("#")
            path = (page.parent / name).resolve() if name else page
            if not path.exists():
                yield f"{page.relative_to(ROOT)}: no file {name}"
            elif anchor and path.suffix == ".md" and anchor not in anchors(path):
                yield f"{page.relative_to(ROOT)}: no heading #{anchor} in {path.name}"


# ---- what is called proved


def claimed() -> Iterator[str]:
    """Where a page for users says that something is proved, and not of which rows of PROMISES.md it is said."""
    for name in FOR_USERS:
        for line in without_blocks(ROOT / name).splitlines():
            claims = re.search(r"\b[Pp]roved\b(?! (?:program|with that kit))", line) and not line.startswith("#")
            if claims and not re.search(r"PROMISES\.md#|\(#what-is-proved\)", line):
                yield f"{name}: no rows of PROMISES.md beside what is called proved: {line[:60]}.."
    section = re.search(r"^## What is proved\n(.*?)^## ", read("README.md"), re.M | re.S)
    named = {name.split("::")[-1] for name in re.findall(r"`([\w:]+)`", section.group(1) if section else "")}
    promised = {name.split("::")[-1] for name in re.findall(r"`((?:\w+::)+\w+)`", read("docs/PROMISES.md"))}
    for name in sorted(named - promised - {"vtmap", "vtserve"}):
        yield f"README.md: {name} is proved by no row of PROMISES.md"


CHECKS = {
    "trusted crates": trusted,
    "folders, scripts, tools and models": listed,
    "counts and the drawing": counted,
    "crates": crate_names.explained,
    "sizes of steps": crate_names.steps,
    "names of types that stand twice": crate_names.twice,
    "names that change with their crate": crate_names.renamed,
    "words and lines": long,
    "links": broken,
    "what is called proved": claimed,
}


def check() -> int:
    """Prints what differs, a line for each check, and returns how many differ."""
    differ = 0
    for name, found in CHECKS.items():
        wrong = list(found())
        differ += bool(wrong)
        print(f"{'DIFFERS ' if wrong else 'ok      '}{name}", *wrong, sep="\n        ", flush=True)
    if not shutil.which("rt"):
        print("        no rt: what the kit's libraries name isn't compared with Trusted")
    return differ
