"""Whether a text file of lines has lost its end: a download that broke off, a program that was still writing, a full
disk. Needs no package.

What is left of a last row may be a row as well, with another place: `9003,Pump,7.505,5` was `9003,Pump,7.505,54.502`.
"""
from __future__ import annotations

import csv
import io
from collections.abc import Iterator
from typing import IO

SEPARATORS = ",;\t|"
# How much of the last line is looked at, and how much of it is shown. GDAL takes fields of any length.
LONGEST, SHOWN = 1 << 20, 40
csv.field_size_limit(2**31 - 1)


def fault_of(file: IO[bytes], columns: int) -> str | None:
    """Why a file seems to be cut, or None. `columns`: how many its table has, 0 if it is none, so that only the ends of
    lines say something."""
    head = file.readline().removeprefix(b"\xef\xbb\xbf")
    end = end_of(file)
    if not head.endswith((b"\n", b"\r")):
        return None
    last = end.rstrip(b"\r\n").replace(b"\r", b"\n").rpartition(b"\n")[2]
    text = last[:SHOWN].decode("utf-8", "replace")
    if not end.endswith((b"\n", b"\r")):
        return f"its last line has no end, and its first one has one ({text!r})"
    separator = separator_of(head, columns)
    if separator is None or fields_of(last, separator) >= columns:
        return None
    # The last line may be the end of a field of several lines.
    file.seek(0)
    count = columns
    try:
        for record in records(file, separator):
            count = len(record) or count
    except csv.Error as fault:
        return f"its last field has no end ({text!r})" if "unexpected end" in str(fault) else None
    return f"its last line has {count} of the {columns} fields of its head ({text!r})" if count < columns else None


def end_of(file: IO[bytes]) -> bytes:
    """The end of a file, with all of its last line unless that is very long."""
    length = file.seek(0, io.SEEK_END)
    file.seek(max(0, length - LONGEST))
    return file.read()


def records(lines: IO[bytes] | list[bytes], separator: str) -> Iterator[list[str]]:
    """The records of a table. Separators and quotes are the same bytes in each encoding that GDAL reads."""
    return csv.reader((line.decode("latin-1") for line in lines), delimiter=separator, strict=True)


def fields_of(line: bytes, separator: str) -> int:
    """How many fields a line has, as far as it is a whole record."""
    try:
        return len(next(records([line], separator), ()))
    except csv.Error:
        return 0


def separator_of(head: bytes, columns: int) -> str | None:
    """What separates the fields of a head with so many; None if that isn't known, or there is one field."""
    if columns < 2:
        return None
    return next((one for one in SEPARATORS if fields_of(head, one) == columns), None)
