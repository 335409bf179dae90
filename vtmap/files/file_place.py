"""Where GDAL finds a file: at its own path, in memory (a text in UTF-16, as Excel writes it), or in a zip file, as
Shapefiles come."""
from __future__ import annotations

import codecs
import io
import os
import posixpath
import zipfile
from typing import IO

from osgeo import gdal

from ..faults import Fault
from ..shown import shown

# Files of a zip file that are read, by the ends of their names. Others beside them (`.dbf`, `.prj`, a licence) belong to
# these, or are for people.
READ = (
    ".shp",
    ".gpkg",
    ".geojson",
    ".json",
    ".geojsonl",
    ".geojsons",
    ".csv",
    ".tsv",
    ".tab",
    ".mif",
    ".gml",
    ".kml",
    ".fgb",
    ".gpx",
    ".xlsx",
    ".sqlite",
)


class Unreadable(Fault):
    """Why a file can't be read."""


class Place:
    """A file. `path` is its path for GDAL."""

    def __init__(self, given: str) -> None:
        self.given, self.path = given, given
        # A text that GDAL reads from memory.
        self.text: bytes | None = None
        # The one file of a zip file that is read, None if it is none, or if they are several.
        self.member: str | None = None
        if given.lower().endswith(".zip") and os.path.isfile(given):
            self.look_into_zip()
        else:
            self.read_utf16()

    def look_into_zip(self) -> None:
        """Finds what is to be read in a zip file: one file, or all Shapefiles of one folder."""
        try:
            with zipfile.ZipFile(self.given) as file:
                names = [name for name in file.namelist() if not posixpath.basename(name).startswith("._")]
        except (OSError, zipfile.BadZipFile) as fault:
            raise Unreadable(f"{self.given} is no whole zip file: {fault}") from fault
        found = [name for name in names if name.lower().endswith(READ)]
        folders = {posixpath.dirname(name) for name in found}
        has_shapefiles = all(name.lower().endswith(".shp") for name in found)
        if not found or (len(found) > 1 and not (has_shapefiles and len(folders) == 1)):
            what = "no file that is read" if not found else "several files: unpack it, and name one"
            raise Unreadable(f"{self.given} has {what} (it has {', '.join(map(shown, found or names)) or 'none'})")
        self.member = found[0] if len(found) == 1 else None
        inside = found[0] if len(found) == 1 else folders.pop()
        whole = os.path.abspath(self.given).replace("\\", "/")
        self.path = f"/vsizip/{{{whole}}}/{inside}".rstrip("/")

    def read_utf16(self) -> None:
        """Has GDAL read a text in UTF-16 from memory, in UTF-8."""
        try:
            with open(self.given, "rb") as file:
                if file.read(2) not in (codecs.BOM_UTF16_LE, codecs.BOM_UTF16_BE):
                    return
                file.seek(0)
                self.text = file.read().decode("utf-16").encode()
        except OSError:
            return
        except UnicodeDecodeError as fault:
            raise Unreadable(f"{self.given} begins like a text in UTF-16, and isn't one: {fault}") from fault
        self.path = f"/vsimem/{os.path.splitext(os.path.basename(self.given))[0]}.csv"
        gdal.FileFromMemBuffer(self.path, self.text)

    def opened(self) -> IO[bytes] | None:
        """The file's bytes, None if it isn't one file."""
        if self.text is not None:
            return io.BytesIO(self.text)
        if self.member is not None:
            with zipfile.ZipFile(self.given) as file:
                return file.open(self.member)
        return open(self.given, "rb") if os.path.isfile(self.given) else None
