"""The texts of changes and of edits as they are read (docs/FORMATS.md), with why there is none: `Cut` or `Bad`.

A text is cut where fewer bytes than the longest text end before it does, and each field that is whole among them is allowed. It shares no
code with the product.
"""
from disk import FIRST_VERSION, LONGEST, LONGEST_OF, NoEdit, Reader, change, changes


class Cut(NoEdit):
    """The bytes end inside the text."""


class Text(Reader):
    """Bytes that are taken from the front."""

    def take(self, size):
        if self.at + size > len(self.held):
            raise Cut
        return super().take(size)


def read(data, most, reads):
    """What stands in front of bytes and how many it takes, or the name of the fault."""
    text = Text(data[:most])
    try:
        return reads(text), text.at
    except Cut:
        return "Cut" if len(data) < most else "Bad"
    except NoEdit:
        return "Bad"


def read_change(data):
    return read(data, LONGEST, change)


def read_edit(data):
    return read(data, LONGEST_OF[2], changes)


def read_record(version, data):
    """The changes of a record's whole text, by the version of the record, or the name of the fault."""
    found = {1: read_change, 2: read_edit}.get(version, lambda data: "Bad")(data)
    if isinstance(found, str) or found[1] != len(data):
        return "Bad"
    return [found[0]] if version == FIRST_VERSION else found[0]
