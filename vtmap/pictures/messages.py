"""What the processes that draw are asked, and answer: the length of a text in JSON, the length of the bytes after it,
both, the text and the bytes. Needs no package."""
from __future__ import annotations

import json
import struct
from collections.abc import Callable
from typing import Any

HEAD = struct.Struct(">II")
# Why nothing was drawn.
NO_MEMORY, NO_TILE = "memory", "tile"


def message(words: dict[str, Any], content: bytes = b"") -> bytes:
    """A message."""
    text = json.dumps(words).encode()
    return HEAD.pack(len(text), len(content)) + text + content


def read(take: Callable[[int], bytes]) -> tuple[dict[str, Any], bytes] | None:
    """The next message, None at the end. `take`: gives so many bytes, or fewer at the end."""
    head = take(HEAD.size)
    if len(head) < HEAD.size:
        return None
    text, length = HEAD.unpack(head)
    return json.loads(take(text)), take(length)
