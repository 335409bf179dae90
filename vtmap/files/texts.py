"""How the texts of a file that GDAL reads are decoded: one decision for the whole file, so that no text loses a letter.

GDAL returns the bytes of a text as they are, if the file doesn't say its encoding or says UTF-8. If all of them are UTF-8, so is the file. A
text that ends within a letter is taken as one that a program cut at the width of its field, if its bytes fill that width, all other texts
are UTF-8, and the file says that it is UTF-8 or has a letter of it elsewhere. In each other case what isn't UTF-8 is read as Windows-1252.
"""
from __future__ import annotations

import codecs
from collections.abc import Callable, Iterable, Iterator
from typing import TYPE_CHECKING, Protocol

from ..progress import counted
from .import_rules import GUESS, NOT_UTF8

if TYPE_CHECKING:
    from osgeo import gdal, ogr

# Formats whose fields of texts have a width in bytes, and the width of the names of fields in a DBF file.
FIXED = ("ESRI Shapefile", "MapInfo File")
NAME_WIDTH = 10
# What a text says of the encoding of its file: nothing; that it is UTF-8; that it is UTF-8 and cut, with and without a whole letter; that it isn't.
PLAIN, UTF8, CUT_UTF8, CUT, OTHER = range(5)
# A file that says ISO-8859-1, as by the mark `ANSI` of a DBF file, is Windows-1252 where it has these control characters.
CONTROLS = {code: bytes([code]).decode(GUESS) for code in range(0x80, 0xa0) if code not in (0x81, 0x8d, 0x8f, 0x90, 0x9d)}


def raw_of(text: str | bytes) -> bytes:
    """The bytes of a text as GDAL returns it."""
    return text.encode("utf-8", "surrogateescape") if isinstance(text, str) else bytes(text)


def is_decoded(text: str | bytes) -> bool:
    """Whether GDAL has decoded all of a text. It returns bytes that aren't UTF-8 as surrogates."""
    return isinstance(text, str) and not any("\ud800" <= letter <= "\udfff" for letter in text)


def judged(text: str | bytes, width: int) -> int:
    """What a text says of the encoding of its file. `width`: that of its field, 0 for none."""
    if is_decoded(text):
        return PLAIN if text.isascii() else UTF8
    raw = raw_of(text)
    try:
        raw.decode()
    except UnicodeDecodeError as fault:
        if fault.reason != "unexpected end of data" or len(raw) != width:
            return OTHER
        return CUT if raw[:fault.start].isascii() else CUT_UTF8
    return UTF8


def texts_of(
    file: gdal.Dataset, is_fixed: bool, features_of: Callable[[ogr.Layer], Iterable[ogr.Feature]]
) -> Iterator[tuple[str | bytes, int]]:
    """Each text of the layers of a file with the width of its field, also the names of fields. `features_of` reads a layer."""
    for at in range(file.GetLayerCount()):
        layer = file.GetLayer(at)
        fields = layer.GetLayerDefn()
        widths = [fields.GetFieldDefn(number).GetWidth() if is_fixed else 0 for number in range(fields.GetFieldCount())]
        yield from ((fields.GetFieldDefn(number).GetName(), NAME_WIDTH if is_fixed else 0) for number in range(fields.GetFieldCount()))
        for feature in counted(features_of(layer), "features looked at for the encoding of their texts"):
            yield from ((feature.GetFieldAsString(number), width) for number, width in enumerate(widths) if feature.IsFieldSetAndNotNull(number))
        layer.ResetReading()


class Notes(Protocol):
    """What takes notes of texts, with an example of each."""

    def add(self, note: str, example: str | None = None) -> None:
        """Takes a note."""


class Texts:
    """Decodes the texts of a file. `encoding` is that of them if the file doesn't say it or says a wrong one. `features_of` reads a layer of it."""

    def __init__(
        self,
        file: gdal.Dataset,
        encoding: str | None,
        notes: Notes,
        features_of: Callable[[ogr.Layer], Iterable[ogr.Feature]] = iter,
    ) -> None:
        self.encoding, self.notes = encoding and codecs.lookup(encoding).name, notes
        says = {file.GetLayer(at).GetMetadataItem("SOURCE_ENCODING", "SHAPEFILE") for at in range(file.GetLayerCount())}
        self.is_latin = encoding is None and "ISO-8859-1" in says
        self.cuts = False
        if encoding is None:
            found = {judged(text, width) for text, width in texts_of(file, file.GetDriver().ShortName in FIXED, features_of)}
            is_utf8 = UTF8 in found or CUT_UTF8 in found or "UTF-8" in says
            self.cuts = OTHER not in found and is_utf8

    def decoded(self, text: str | bytes, what: str) -> str:
        """A text of the file. `what` names its kind in notes."""
        if self.encoding is not None:
            return self.by(self.encoding, raw_of(text), what)
        if isinstance(text, str) and is_decoded(text):
            return text.translate(CONTROLS) if self.is_latin else text
        raw = raw_of(text)
        try:
            return raw.decode()
        except UnicodeDecodeError as fault:
            if self.cuts:
                self.notes.add(f"{what}: the file ends them within a letter, which is dropped")
                return raw[:fault.start].decode()
        made = self.by(GUESS, raw, what)
        self.notes.add(NOT_UTF8.format(what=what, encoding=GUESS), made)
        return made

    def by(self, encoding: str, raw: bytes, what: str) -> str:
        """A text in an encoding."""
        made = raw.decode(encoding, "replace")
        if "\ufffd" in made:
            self.notes.add(f"{what}: some bytes aren't of {encoding}, and are replaced by U+FFFD", made)
        return made
