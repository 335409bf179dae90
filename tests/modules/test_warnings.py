"""Tests of what `vtmap watch` says before a map is full: of journal, area and archive, by what a server tells."""
import unittest

import stand  # noqa: F401  (the path of vtmap)
from vtmap.client import entries
from vtmap.commands import watch

MOST = 131072


def status(**more):
    """What a server tells of itself that has room for all."""
    told = {
        "broken": False,
        "version": 2,
        "generation": 1,
        "edits": 7,
        "archive": 5120,
        "entries": 10,
        "left": None,
        "drafting": None,
        "journal": {"used": 10, "places": 1000},
        "area": {"used": 20, "sectors": 1000},
        "stale": 0,
        "cells": 100,
    }
    return {**told, **more}


class Entries(unittest.TestCase):
    def test_from_80_percent_on(self):
        # 80 % of 131,072 are 104,857.6.
        for used, is_told in [(0, False), (104857, False), (104858, True), (MOST, True)]:
            told = list(watch.many_tiles(status(entries=used), entries.MUCH))
            self.assertEqual([level for level, _ in told], [watch.SOON] * is_told, used)
            self.assertEqual([f"has {used:,} entries" in text for _, text in told], [True] * is_told)

    def test_of_the_archive_in_the_making_first(self):
        told = list(watch.many_tiles(status(entries=MOST, drafting={"entries": 120000, "made": 1, "places": 2}), 80))
        self.assertEqual([text[:50] for _, text in told], ["the archive in the making has already 120,000 entr"])

    def test_what_an_older_server_does_not_tell(self):
        self.assertEqual(list(watch.many_tiles({"drafting": {"made": 1}}, 80)), [])

    def test_another_share(self):
        self.assertEqual([len(list(entries.many(used, True, 50))) for used in (65535, 65536)], [0, 1])


class Full(unittest.TestCase):
    def levels(self, **more):
        return [level for level, _ in watch.fullness(status(**more), 80)]

    def test_nothing_is(self):
        self.assertEqual(self.levels(), [])

    def test_the_journal(self):
        for used, wanted in [(799, []), (800, [watch.SOON]), (1000, [watch.NOW])]:
            told = self.levels(area={"used": 20, "sectors": 9000}, journal={"used": used, "places": 1000})
            self.assertEqual(told, wanted, used)

    def test_an_area(self):
        self.assertEqual(self.levels(area={"used": 799, "sectors": 1000}), [])
        self.assertEqual(self.levels(area={"used": 800, "sectors": 1000}), [watch.SOON])

    def test_the_next_publication(self):
        # The last one took 20 sectors, 10 of them for the snapshot: the journal's edits take twice what they have.
        self.assertEqual(watch.next_area(status(journal={"used": 300, "places": 1000})), 620)
        self.assertEqual(self.levels(journal={"used": 490, "places": 1000}), [])
        self.assertEqual(self.levels(journal={"used": 491, "places": 1000}), [watch.SOON])

    def test_a_failed_disk_and_an_old_one(self):
        self.assertEqual(self.levels(broken=True), [watch.NOW])
        self.assertEqual(self.levels(version=1), [watch.SOON])


class Refused(unittest.TestCase):
    def test_what_is_to_be_done_about_a_publication_that_was_refused(self):
        self.assertIn("smaller zoom", watch.then_of("refused: TooManyTiles 507"))
        self.assertIn("move it to a larger one", watch.then_of("refused: AreaFull 507"))
        self.assertEqual(watch.then_of("no reply"), "")


if __name__ == "__main__":
    unittest.main()
