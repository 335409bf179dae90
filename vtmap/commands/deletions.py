"""When deletions are taken for a mistake."""
from __future__ import annotations

import argparse
import re

# More deletions than this, and than half of all.
MANY = 20


def are_many(gone: int, known: int) -> bool:
    """Whether so many of so many features are deleted by mistake."""
    return gone > max(MANY, known // 2)


class Most:
    """The most deletions that somebody allows: a number of features (`25`), or a share of what there is (`10%`)."""

    def __init__(self, text: str) -> None:
        found = re.fullmatch(r"(\d+)|(\d+(?:\.\d+)?)%", text)
        if not found or (found[2] and float(found[2]) > 100):
            raise ValueError(text)
        self.text, self.percent = text, float(found[2]) if found[2] else None
        self.number = int(found[1] or 0)

    def __str__(self) -> str:
        return self.text

    def allows(self, gone: int, known: int) -> bool:
        """Whether so many of so many features may be deleted."""
        return gone <= self.number if self.percent is None else gone * 100 <= known * self.percent


def most(text: str) -> Most:
    """The value of `--delete-at-most`."""
    try:
        return Most(text)
    except ValueError as fault:
        raise argparse.ArgumentTypeError(
            f"{text!r} is neither a number of features (25) nor a share of a layer (10%)"
        ) from fault
