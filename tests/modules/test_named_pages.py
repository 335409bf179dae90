"""Each heading of a page that `vtmap` names, as in `docs/DEPLOYING.md, A second machine`, is one of that page."""
import glob
import os
import re
import unittest

import stand

NAMED = re.compile(r"docs/(\w+\.md), ((?:[A-Z]|\")[^):`\n\"]*)")


class NamedPages(unittest.TestCase):
    def test_headings_that_are_named(self):
        found = set()
        for path in glob.glob(os.path.join(stand.TOP, "vtmap", "**", "*.py"), recursive=True):
            with open(path, encoding="utf-8") as file:
                found |= {
                    (page, heading.strip('"')) for page, heading in NAMED.findall(file.read().replace('"\n', '"'))
                }
        self.assertIn(("DEPLOYING.md", "A second machine"), found)
        for page, heading in found:
            with open(os.path.join(stand.TOP, "docs", page), encoding="utf-8") as file:
                headings = [line.strip("#` \n") for line in file if line.startswith("#")]
            self.assertIn(heading, [one.replace("`", "") for one in headings], page)


if __name__ == "__main__":
    unittest.main()
