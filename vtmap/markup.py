"""XML that is written. Whatever a map, a file or a client says is escaped here, whoever writes it. Needs no package."""
from __future__ import annotations

import functools
import re
from collections.abc import Iterable, Mapping

# What XML 1.0 can't say, and what stands for it.
UNSAYABLE = re.compile("[\x00-\x08\x0b\x0c\x0e-\x1f\ud800-\udfff\ufffe\uffff]")
REPLACEMENT = "\ufffd"
NAME = re.compile(r"""[^\s<>&"'/=]+""")
HEAD = '<?xml version="1.0" encoding="UTF-8"?>'


class Xml(str):
    """A text that is XML already. Only this module makes one: any other text is escaped."""


def sayable(text: str) -> str:
    """A text without what XML can't say."""
    return UNSAYABLE.sub(REPLACEMENT, text)


def said(value: object) -> str:
    """A text or a number as the text of an element or of an attribute."""
    text = str(value).replace("&", "&amp;").replace("<", "&lt;").replace(">", "&gt;").replace('"', "&quot;")
    # What XML can't say isn't printable, nor is a carriage return, which a reader would take for a line feed.
    return text if text.isprintable() else sayable(text).replace("\r", "&#13;")


@functools.lru_cache(4096)
def see_name(name: str) -> None:
    """Refuses a name that would end its tag."""
    if not NAME.fullmatch(name):
        raise ValueError(f"{name!r} is no name of an element or an attribute")


def begun(name: str, attributes: Mapping[str, object]) -> str:
    """The beginning of an element, without what ends its tag."""
    see_name(name)
    made = f"<{name}"
    for key, value in attributes.items():
        see_name(key)
        made += f' {key}="{said(value)}"'
    return made


def together(parts: Iterable[object]) -> Xml:
    """Elements and texts, one after the other."""
    return Xml("".join([part if type(part) is Xml else said(part) for part in parts]))


def element(name: str, /, *content: object, **attributes: object) -> Xml:
    """An element: attributes, and elements or texts inside of it."""
    inner = together(content)
    return Xml(f"{begun(name, attributes)}>{inner}</{name}>" if inner else f"{begun(name, attributes)}/>")


class Frame:
    """Elements inside of each other that are written often. `names`: the outer one first, each alone or with its
    attributes."""

    def __init__(self, *names: str | tuple[str, Mapping[str, object]]) -> None:
        pairs = [(name, {}) if isinstance(name, str) else name for name in names]
        self.head = "".join([f"{begun(name, attributes)}>" for name, attributes in pairs])
        self.tail = "".join([f"</{name}>" for name, _ in reversed(pairs)])

    @property
    def begun(self) -> str:
        """What a document of it begins with."""
        return HEAD + self.head

    def of(self, content: object) -> Xml:
        """The elements, with a content inside of the inner one."""
        return Xml(f"{self.head}{content if type(content) is Xml else said(content)}{self.tail}")

    def document(self, parts: Iterable[object]) -> str:
        """A whole document with elements, which may be very many, inside of the inner one."""
        return "".join([HEAD, self.head, *[part if type(part) is Xml else said(part) for part in parts], self.tail])


def document(root: str) -> str:
    """A whole document."""
    return HEAD + root
