"""What the tests of `vtmap`'s modules share: the package on the path, features, and folders of their own."""
import os
import sys
import tempfile
import unittest

TOP = os.path.join(os.path.dirname(os.path.abspath(__file__)), "..", "..")
sys.path.insert(0, TOP)


def feature(geometry=None, layer="p", first=0, last=2, **tags):
    """A feature of the map."""
    return {
        "layer": layer,
        "minzoom": first,
        "maxzoom": last,
        "geometry": geometry or {"points": [[0, 0]]},
        "tags": tags,
    }


class InFolder(unittest.TestCase):
    """Tests that write files."""

    def setUp(self):
        self.scratch = tempfile.TemporaryDirectory()
        self.addCleanup(self.scratch.cleanup)

    def path(self, name, text=None):
        """The path of a file, which gets a text if there is one."""
        path = os.path.join(self.scratch.name, name)
        if text is not None:
            with open(path, "w", encoding="utf-8") as file:
                file.write(text)
        return path
