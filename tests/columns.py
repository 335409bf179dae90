#!/usr/bin/env python3
"""Finds lines of over 120 columns in Python files that are held to that: `python3 tests/columns.py`.

What a text in three quotes has is another language's, and may be longer. It prints the other long lines, and ends with
1 if there is one.
"""
import io
import sys
import tokenize
from pathlib import Path

ROOT = Path(__file__).resolve().parents[1]
# The folders and files that are held to it: whoever brings another one there adds it.
HELD = ["tests/clients", "tests/columns.py", "tests/crate_names.py", "tests/documents.py", "tests/page_lists.py"]
HELD += ["tests/promises.py", "tools/floors.py"]
HELD += [f"vtmap/{name}" for name in ("archives", "front", "gateway", "geometry", "machine", "pictures")]
OF_MODULES = ("archives", "gateway", "machine", "telling", "undo", "warnings", "words")
HELD += [f"tests/modules/test_{name}.py" for name in OF_MODULES]
MOST = 120


def of_texts(source: str) -> set[int]:
    """The numbers of the lines that a text in three quotes has, but for the docstrings, which are ours."""
    found: set[int] = set()
    before = tokenize.INDENT
    for token in tokenize.generate_tokens(io.StringIO(source).readline):
        is_docstring = before in (tokenize.INDENT, tokenize.NEWLINE, tokenize.ENCODING)
        if token.type == tokenize.STRING and token.start[0] < token.end[0] and not is_docstring:
            found.update(range(token.start[0], token.end[0] + 1))
        if token.type not in (tokenize.NL, tokenize.COMMENT):
            before = token.type
    return found


def long_lines(path: Path) -> list[str]:
    source = path.read_text(encoding="utf-8")
    texts = of_texts(source)
    lines = enumerate(source.splitlines(), 1)
    return [f"{path.relative_to(ROOT)}:{number}" for number, line in lines if len(line) > MOST and number not in texts]


def main() -> int:
    paths = [path for name in HELD for path in sorted([ROOT / name, *(ROOT / name).glob("*.py")]) if path.is_file()]
    found = [line for path in paths for line in long_lines(path)]
    print(*found, f"{len(paths)} files, {len(found)} lines of over {MOST} columns", sep="\n")
    return 1 if found else 0


if __name__ == "__main__":
    sys.exit(main())
