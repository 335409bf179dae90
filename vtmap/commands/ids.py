"""Ids, and numbers of edits, as the words of a command have them. Needs no package."""
from collections.abc import Iterable


def ranges(text: str) -> list[range]:
    """The ranges of ids of `1-3000,5000`."""
    parts = [part.partition("-") for part in text.split(",")]
    return [range(int(first), int(last or first) + 1) for first, _, last in parts]


def told_ranges(numbers: Iterable[int]) -> str:
    """Ascending numbers as `ranges` reads them."""
    found: list[list[int]] = []
    for number in numbers:
        if found and found[-1][1] == number - 1:
            found[-1][1] = number
        else:
            found.append([number, number])
    return ",".join(f"{first}" if first == last else f"{first}-{last}" for first, last in found)
