"""Names of layers and tags as names of XML. Needs no package.

A name of XML says the name of the map by itself, so a project that was saved long ago still sends its edits to the
right tag: `:` is `.`, a blank is `·`, and what XML doesn't allow is `_xHHHH_`. """
from __future__ import annotations

import re
from collections.abc import Container

START = "A-Z_a-z\u00c0-\u00d6\u00d8-\u00f6\u00f8-\u02ff\u0370-\u037d\u037f-\u1fff\u2070-\u218f"
START += "\u2c00-\u2fef\u3001-\ud7ff\uf900-\ufdcf\ufdf0-\ufffd"
FIRST, INNER = re.compile(f"[{START}]"), re.compile(f"[-0-9\u0300-\u036f{START}]")
# Characters that names of tags often have and those of XML may not, as others that names of XML may have.
WRITTEN = {":": ".", " ": "\u00b7"}
READ = {to: of for of, to in WRITTEN.items()}
CODED = re.compile("_x([0-9A-F]{4,6})_")


def xml_name(text: str, taken: Container[str] = ()) -> str:
    """A name of the map as a name of XML, none of `taken`: names differ by more than their case. `map_name` gives it
    back."""
    made = ""
    for place, part in enumerate(text):
        is_safe = (INNER if place else FIRST).match(part) and not CODED.match(text, place)
        made += part if is_safe else WRITTEN[part] if part in WRITTEN and place else coded(part)
    return coded(text[0]) + made[1:] if made.lower() in taken else made


def coded(part: str) -> str:
    """A character by its number."""
    return f"_x{ord(part):04X}_"


def map_name(name: str) -> str:
    """The name of the map of which `xml_name` made this one."""
    parts = CODED.split(name)
    return "".join(
        chr(int(part, 16)) if at % 2 else "".join(READ.get(one, one) for one in part) for at, part in enumerate(parts)
    )
