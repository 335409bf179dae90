"""Photos and files that tags of features name: a folder in which each has the hash of its content as its name. Needs no package.

A tag has the path `files/HASH.jpg`. What a file is its first bytes say, whatever its sender says: pictures and PDF, nothing that a browser runs. A file
is never replaced, since its name is its content's, and nothing here removes one.
"""
from __future__ import annotations

import hashlib
import os
import re
import shutil
from collections.abc import Iterable, Iterator
from typing import Any, NamedTuple

from ..faults import Refused
from ..systems import is_windows

PATH = "files/"
# The most bytes of one, and those of the disk that have to stay free.
MOST_BYTES, LEAST_FREE = 20 << 20, 512 << 20
# The end of the name and the media type of each kind.
KINDS = {"jpg": "image/jpeg", "png": "image/png", "gif": "image/gif", "webp": "image/webp", "pdf": "application/pdf"}
BEGINNINGS = (("jpg", b"\xff\xd8\xff"), ("png", b"\x89PNG\r\n\x1a\n"), ("gif", b"GIF87a"), ("gif", b"GIF89a"), ("pdf", b"%PDF-"))
NAME = re.compile(rf"[0-9a-f]{{64}}\.(?:{'|'.join(KINDS)})")
IN_TEXT = re.compile(rf"(?<![0-9A-Za-z]){PATH}({NAME.pattern})(?![0-9A-Za-z])")
# Names that a sender chooses, before it knows the hash: each is a small file in this folder with the name of the file that it is.
GIVEN, GIVEN_NAME = "put", re.compile(r"[0-9A-Za-z_-]{1,64}(?:\.[0-9A-Za-z]{1,5})?")
PART = ".part"


class Wrong(Refused):
    """Why a file is never kept: it is none of the kinds."""


class Taken(Refused):
    """Why a file isn't kept under a name that its sender chose: another one has it."""


class Full(Refused):
    """Why no file is kept just now."""


class Use(NamedTuple):
    """Which files a map names: by their names the features and tags that do."""

    named: dict[str, list[tuple[int, str]]]

    @classmethod
    def of(cls, features: Iterable[tuple[int, dict[str, Any]]]) -> Use:
        """That of features, each with its id."""
        made = cls({})
        for number, feature in features:
            made.add(number, feature)
        return made

    def add(self, number: int, feature: dict[str, Any]) -> None:
        """Adds what a feature names."""
        for tag, value in feature["tags"].items():
            for name in IN_TEXT.findall(value) if isinstance(value, str) else ():
                self.named.setdefault(name, []).append((number, tag))


def kind_of(content: bytes) -> str | None:
    """The end of the name of a file with this content, None if it is of no kind that is kept."""
    if content[:4] == b"RIFF" and content[8:12] == b"WEBP":
        return "webp"
    return next((kind for kind, beginning in BEGINNINGS if content.startswith(beginning)), None)


def name_of(content: bytes) -> str:
    """The name of a file with this content. Raises `Wrong`."""
    kind = kind_of(content)
    if kind is None:
        raise Wrong("it is no picture (JPEG, PNG, GIF, WebP) and no PDF, by its first bytes")
    return f"{hashlib.sha256(content).hexdigest()}.{kind}"


class Attachments:
    """The files of a folder."""

    def __init__(self, folder: str) -> None:
        self.folder = folder

    def path(self, *parts: str) -> str:
        """A path of the folder."""
        return os.path.join(self.folder, *parts)

    def names(self) -> Iterator[str]:
        """The names of the files that there are."""
        if os.path.isdir(self.folder):
            yield from sorted(filter(NAME.fullmatch, os.listdir(self.folder)))

    def has(self, name: str) -> bool:
        """Whether there is a file of a name."""
        return os.path.isfile(self.path(name))

    def put(self, content: bytes) -> str:
        """Keeps a file. Returns its name once it is on the disk. Raises `Refused`, or `OSError`."""
        name = name_of(content)
        os.makedirs(self.folder, exist_ok=True)
        if not self.has(name):
            if shutil.disk_usage(self.folder).free < LEAST_FREE + len(content):
                raise Full(f"the disk of the files has less than {LEAST_FREE >> 20} MB left: tell the administrator")
            write(self.path(name), content)
        return name

    def put_as(self, given: str, content: bytes) -> str:
        """Keeps a file under a name that its sender has chosen too. Returns its own name. Raises `Taken` if another file has that."""
        name = self.put(content)
        os.makedirs(self.path(GIVEN), exist_ok=True)
        before = self.given(given)
        if before not in (None, name):
            raise Taken("there is another file of this name")
        if before is None:
            write(self.path(GIVEN, given), name.encode())
        return name

    def given(self, given: str) -> str | None:
        """The name of the file for which a sender has chosen a name, or None."""
        try:
            with open(self.path(GIVEN, given), encoding="ascii") as file:
                name = file.read()
        except OSError:
            return None
        return name if NAME.fullmatch(name) else None

    def is_whole(self, name: str) -> bool:
        """Whether the content of a file is that of its name."""
        found = hashlib.sha256()
        with open(self.path(name), "rb") as file:
            while part := file.read(1 << 20):
                found.update(part)
        return name.startswith(found.hexdigest())

    def copy_to(self, other: Attachments, name: str) -> bool:
        """Copies a file to another folder that lacks it. Returns whether it was whole."""
        with open(self.path(name), "rb") as file:
            content = file.read()
        if not name.startswith(hashlib.sha256(content).hexdigest()):
            return False
        os.makedirs(other.folder, exist_ok=True)
        write(other.path(name), content)
        return True


def write(path: str, content: bytes) -> None:
    """Writes a file that is there whole or not at all, and never in the place of another one."""
    part = f"{path}.{os.getpid()}-{os.urandom(4).hex()}{PART}"
    try:
        with open(part, "xb") as file:
            file.write(content)
            file.flush()
            os.fsync(file.fileno())
        try:
            os.link(part, path)
        except FileExistsError:
            pass
    finally:
        if os.path.exists(part):
            os.unlink(part)
    if not is_windows():
        descriptor = os.open(os.path.dirname(path), os.O_RDONLY)
        try:
            os.fsync(descriptor)
        finally:
            os.close(descriptor)


def saved(source: Attachments, target: Attachments) -> tuple[int, int, list[str]]:
    """Copies what a folder has and another one lacks. Returns how many were copied, how many were there, and those that are damaged."""
    copied, there, damaged = 0, 0, []
    for name in source.names():
        if target.has(name):
            there += 1
        elif source.copy_to(target, name):
            copied += 1
        else:
            damaged.append(name)
    return copied, there, damaged
