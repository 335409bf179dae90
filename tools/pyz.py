#!/usr/bin/env python3
"""Makes vtmap one file, vtmap.pyz, which each Python from the oldest one of vtmap/__init__.py on runs, QGIS's own too.

    python3 tools/pyz.py [FILE]    FILE is vtmap.pyz

The same sources make the same bytes. tools/package.sh puts the file beside the page, where an office takes it from.
"""
import os
import sys
import zipfile

TOP = os.path.join(os.path.dirname(os.path.abspath(__file__)), "..")
START = b"#!/usr/bin/env python3\n"
MAIN = '''"""`python vtmap.pyz`."""
import sys

from vtmap.command_line import main

sys.exit(main(sys.argv[1:]))
'''
# The oldest time that a zip archive knows.
TIME = (1980, 1, 1, 0, 0, 0)


def sources():
    """The paths of the package's files in the archive, each with its text."""
    for folder, folders, names in os.walk(os.path.join(TOP, "vtmap")):
        folders.sort()
        for name in sorted(names):
            if name.endswith(".py"):
                path = os.path.join(folder, name)
                with open(path, encoding="utf-8") as file:
                    yield os.path.relpath(path, TOP).replace(os.sep, "/"), file.read()


def write(path):
    """Writes the file, which a system with a line of its first bytes runs by itself."""
    with open(path, "wb") as file:
        file.write(START)
        with zipfile.ZipFile(file, "w", zipfile.ZIP_DEFLATED) as archive:
            for name, text in [("__main__.py", MAIN), *sources()]:
                about = zipfile.ZipInfo(name, TIME)
                about.compress_type, about.external_attr = zipfile.ZIP_DEFLATED, 0o644 << 16
                archive.writestr(about, text)
    os.chmod(path, 0o755)


if __name__ == "__main__":
    write(sys.argv[1] if len(sys.argv) > 1 else "vtmap.pyz")
