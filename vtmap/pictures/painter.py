"""A process that draws: `python3 -m vtmap.pictures.painter MEMORY`. Needs pycairo.

It takes drawings one by one from standard input, and answers each on standard output. What is drawn may be anything
that a map has: a drawing that takes more memory than this process may have is refused, and one that takes too long is
ended with the process. """
from __future__ import annotations

import sys
from typing import Any

import cairo

from ..files.vector_tile import BROKEN, decoded
from ..systems import module
from .drawing import Part, drawn, pieces
from .messages import NO_MEMORY, NO_TILE, message, read
from .style import Style


def painted(words: dict[str, Any], content: bytes) -> bytes:
    """The answer to a drawing."""
    try:
        layers = decoded(content)
    except BROKEN:
        return message({"fault": NO_TILE})
    style = Style(words["style"], words["layers"])
    picture = drawn(layers, style, words["zoom"], Part(*words["part"]), words["scale"], words["transparent"])
    made = pieces(picture, words["pieces"])
    return message({"lengths": list(map(len, made))}, b"".join(made))


def limit(memory: int) -> None:
    """Bounds the memory of this process, where the system can."""
    limits: Any = module("resource")
    if limits:
        limits.setrlimit(limits.RLIMIT_AS, (memory, memory))


def main() -> int:
    """Draws until the end of standard input, or until there is no memory: what is left of it then isn't known."""
    limit(int(sys.argv[1]))
    status = 0
    while status == 0 and (asked := read(sys.stdin.buffer.read)) is not None:
        try:
            answer = painted(*asked)
        except (MemoryError, cairo.Error):
            status, answer = 1, message({"fault": NO_MEMORY})
        sys.stdout.buffer.write(answer)
        sys.stdout.buffer.flush()
    return status


if __name__ == "__main__":
    sys.exit(main())
