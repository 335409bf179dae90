#!/usr/bin/env python3
"""The drawing of the crates: docs/pictures/crates.svg, made from crates.txt and the sources.

    python3 tools/floors.py            writes the drawing
    python3 tools/floors.py check      ends with 1 if the drawing isn't the one that would be written: other crates or
                                       lines between them, or numbers that differ by more than a tenth
    python3 tools/floors.py CRATE..    prints the crates right above each of these, and all that are proved again if it
                                       changes

A crate is one floor above the highest crate that it stands on. A line leads to it from each crate that it stands on and
that no other crate between them stands on. Each box has the thousands of lines of its functions with their contracts
(`src`), those of its definitions and proofs (`specs`, `proofs`), and how many crates stand above it, right or further
up. Scripts, tests and the example are counted there and not drawn, since they stand on nearly all others.
"""
import re
import sys
from pathlib import Path
from statistics import mean

ROOT = Path(__file__).resolve().parents[1]
Crates = dict[str, list[str]]
DRAWING = ROOT / "docs" / "pictures" / "crates.svg"
WIDTH, BOX, HEIGHT, GAP, FLOOR = 1180, 112, 40, 10, 82
CAPTION = "in a box: lines of functions + lines of definitions and proofs, crates above"
STYLE = (
    "text{font:11px sans-serif;text-anchor:middle;fill:#222}.n{font-size:10px;fill:#555}"
    "rect{fill:#eef3f8;stroke:#5b7fa3}path{fill:none;stroke:#9db3c8}"
)


def below() -> Crates:
    """The crates of crates.txt, lowest first, each with those of them that it stands on."""
    lines = [line.partition(":") for line in (ROOT / "crates.txt").read_text().splitlines() if line and line[0] != "#"]
    names = {name for name, _, _ in lines}
    return {name: [other for other in words.split() if other in names] for name, _, words in lines}


def all_below(name: str, crates: Crates) -> set[str]:
    """The crates on which one stands, right or further down."""
    found = set()
    for other in crates[name]:
        found |= {other} | all_below(other, crates)
    return found


def all_above(name: str, crates: Crates) -> set[str]:
    """The crates that stand on one, right or further up."""
    return {other for other in crates if name in all_below(other, crates)}


def floors(crates: Crates) -> dict[str, int]:
    """The floor of each crate."""
    found: dict[str, int] = {}
    for name, stands_on in crates.items():
        found[name] = 1 + max((found[other] for other in stands_on), default=-1)
    return found


def drawn_below(name: str, crates: Crates) -> list[str]:
    """The crates from which a line leads to one."""
    further = set().union(*(all_below(other, crates) for other in crates[name]))
    return [other for other in crates[name] if other not in further]


def lines_of(name: str, kinds: list[str]) -> int:
    """The lines of a crate's files in these folders."""
    files = [path for kind in kinds for path in (ROOT / "crates" / name / kind).rglob("*")]
    texts = [path.read_text(encoding="utf-8") for path in files if path.suffix in (".rt", ".antt")]
    return sum(len(text.splitlines()) for text in texts)


def thousands(count: int) -> str:
    return f"{count / 1000:.1f}k"


def counted(name: str, crates: Crates) -> str:
    """What is written in a crate's box beside its name."""
    code, proof = lines_of(name, ["src"]), lines_of(name, ["specs", "proofs"])
    return f"{thousands(code)} + {thousands(proof)}, {len(all_above(name, crates))}"


def is_drawn_crate(name: str) -> bool:
    return not name.endswith("_runs") and not name.startswith(("tests_", "script_", "read_archive"))


def spread(wanted: dict[str, float]) -> dict[str, float]:
    """Places in a row as near as may be to those that are wanted, in their order, none over another one: boxes that
    would overlap stand side by side around their middle."""
    order = sorted(wanted, key=lambda name: (wanted[name], name))
    step = BOX + GAP
    groups: list[tuple[float, int]] = []
    for index, name in enumerate(order):
        groups.append((wanted[name] - index * step, 1))
        while len(groups) > 1 and groups[-2][0] > groups[-1][0]:
            (first, some), (last, others) = groups[-2:]
            groups[-2:] = [((first * some + last * others) / (some + others), some + others)]
    most = WIDTH - BOX - (len(order) - 1) * step
    starts = [min(max(start, 0), most) for start, count in groups for _ in range(count)]
    return {name: start + index * step for index, (name, start) in enumerate(zip(order, starts, strict=True))}


def places(crates: Crates) -> dict[str, tuple[float, float]]:
    """The left edge and the top of each box: each crate near the middle of those that lines lead to, in 20 rounds."""
    lines = [(name, other) for name in crates for other in drawn_below(name, crates)]
    near = {name: [other for pair in lines if name in pair for other in pair if other != name] for name in crates}
    rows: dict[int, list[str]] = {}
    for name, floor in floors(crates).items():
        rows.setdefault(floor, []).append(name)
    left = {name: index * WIDTH / len(names) for names in rows.values() for index, name in enumerate(names)}
    for turn in range(20):
        for floor in sorted(rows, reverse=turn % 2 == 1):
            left |= spread({name: mean(left[other] for other in near[name] or [name]) for name in rows[floor]})
    return {name: (left[name], 30 + (max(rows) - floor) * FLOOR) for floor, names in rows.items() for name in names}


def drawing() -> str:
    """The text of the drawing."""
    crates, every = {name: stands_on for name, stands_on in below().items() if is_drawn_crate(name)}, below()
    at = places(crates)
    bottom = max(y for _, y in at.values()) + HEIGHT + 10
    parts = [
        f'<svg xmlns="http://www.w3.org/2000/svg" viewBox="0 0 {WIDTH + 10} {bottom:.0f}">',
        "<title>The crates: who stands on whom. Made by tools/floors.py.</title>",
        f"<style>{STYLE}</style>",
        f'<rect x="0" y="0" width="{WIDTH + 10}" height="{bottom:.0f}" style="fill:#fff;stroke:none"/>',
        f'<text x="{WIDTH / 2:.0f}" y="16" class="n">{CAPTION}</text>',
    ]
    for name in crates:
        x, y = at[name]
        for other in drawn_below(name, crates):
            from_x, from_y = at[other]
            middle = (from_y + y + HEIGHT) / 2
            parts.append(
                f'<path d="M{from_x + BOX / 2:.0f} {from_y:.0f}C{from_x + BOX / 2:.0f} {middle:.0f} '
                f'{x + BOX / 2:.0f} {middle:.0f} {x + BOX / 2:.0f} {y + HEIGHT:.0f}"/>'
            )
    for name in crates:
        x, y = at[name]
        parts.append(f'<rect x="{x:.0f}" y="{y:.0f}" width="{BOX}" height="{HEIGHT}" rx="4"/>')
        parts.append(f'<text x="{x + BOX / 2:.0f}" y="{y + 17:.0f}">{name}</text>')
        parts.append(f'<text x="{x + BOX / 2:.0f}" y="{y + 32:.0f}" class="n">{counted(name, every)}</text>')
    return "\n".join([*parts, "</svg>", ""])


NUMBERS = re.compile(r"(\d+\.\d)k \+ (\d+\.\d)k")


def is_drawn() -> bool:
    """Whether the drawing is the one that would be written, its numbers within a tenth."""
    kept, made = DRAWING.read_text(encoding="utf-8"), drawing()
    if NUMBERS.sub("", kept) != NUMBERS.sub("", made):
        return False
    pairs = zip(NUMBERS.findall(kept), NUMBERS.findall(made), strict=True)
    numbers = [(float(old), float(new)) for one, two in pairs for old, new in zip(one, two, strict=True)]
    return all(abs(old - new) <= max(0.1, new / 10) + 0.001 for old, new in numbers)


def main() -> None:
    words = sys.argv[1:]
    if words == ["check"]:
        if not is_drawn():
            sys.exit(f"{DRAWING.relative_to(ROOT)} isn't the drawing of crates.txt: python3 tools/floors.py writes it")
    elif words:
        crates = below()
        for name in words:
            if name not in crates:
                sys.exit(f"no crate {name} in crates.txt")
            print(f"{name}: right above {' '.join(other for other in crates if name in crates[other]) or 'nothing'}")
            above = all_above(name, crates)
            print(f"    proved again with it: {' '.join(other for other in crates if other in above) or 'nothing'}")
    else:
        DRAWING.write_text(drawing(), encoding="utf-8")


if __name__ == "__main__":
    main()
