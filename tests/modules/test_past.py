"""Tests of vtmap/files/past.py, which edit was the last one at a time, and of vtmap/gateway/history.py, what a log says
of a feature. The rows are those of docs/FORMATS.md, *The log of edits*."""
import json
import os
import tempfile
import unittest
from datetime import datetime, timezone

import stand  # noqa: F401
from vtmap.faults import Refused
from vtmap.files.past import Base, Line, last_by
from vtmap.gateway.history import History


def at(minute):
    """A time."""
    return datetime(2026, 11, 29, 12, minute, tzinfo=timezone.utc)


def edit(number, minute, since=None):
    """The line of an edit, which was seen at a minute, and made after another one if that is given."""
    return Line(number, number, [], "-", None if since is None else at(since), at(minute))


BEGINS = Line(5, 4, None, "-", None, at(0))
GAP = Line(7, 9, None, "-", at(20), at(30))


class LastBy(unittest.TestCase):
    def test_which_edit_was_the_last_one(self):
        prompt = [BEGINS, edit(5, 10), edit(6, 20)]
        late = [BEGINS, edit(5, 10), edit(6, 40, since=20), edit(7, 50)]
        rows = [
            (prompt, 5, None, (4, False)),
            (prompt, 10, None, (5, False)),
            (prompt, 19, None, (5, False)),
            (prompt, 20, None, (6, True)),
            (late, 15, None, (5, False)),
            (late, 45, None, (6, False)),
            ([*prompt, GAP], 25, Base({}, 8, "a save", by=at(24)), None),
            ([*prompt, GAP], 25, Base({}, 6, "a save", after=at(26)), (6, False)),
            ([*prompt, GAP, edit(10, 50)], 35, None, (9, False)),
            ([edit(5, 10)], 20, Base({}, 3, "a save", by=at(1)), None),
            (late, 30, Base({}, 6, "a save", by=at(30)), (6, False)),
            (late, 30, Base({}, 5, "a save", after=at(30)), (5, False)),
            (prompt, 30, Base({}, 6, "a save", after=at(40)), (6, False)),
        ]
        for lines, minute, base, wanted in rows:
            with self.subTest(minute=minute, base=base):
                if wanted is None:
                    self.assertRaises(Refused, last_by, lines, at(minute), base)
                else:
                    self.assertEqual(last_by(lines, at(minute), base), wanted)

    def test_what_is_not_known_is_refused(self):
        rows = [
            ([edit(5, 10)], 5, "begins with edit 5"),
            ([BEGINS, edit(5, 10), edit(6, 40, since=20)], 30, "edit 6: made after"),
            ([BEGINS, edit(5, 10), edit(6, 20), GAP], 25, "the edits 7 to 9: made after"),
            ([], 5, "the log has no edit"),
        ]
        for lines, minute, reason in rows:
            with self.assertRaisesRegex(Refused, reason):
                last_by(lines, at(minute), None)


class Histories(unittest.TestCase):
    def test_what_a_log_says_of_a_feature(self):
        feature = stand.feature(name="a")
        changes = [
            (1, {"put": 352, "feature": feature, "was": None}),
            (2, {"put": 35, "feature": stand.feature(name='"put":352,'), "was": None}),
            (3, {"delete": 352}),
            (4, {"put": 3521, "feature": feature, "was": None}),
        ]
        with tempfile.TemporaryDirectory() as folder:
            path = os.path.join(folder, "edits.jsonl")
            with open(path, "w", encoding="utf-8") as file:
                for number, change in changes:
                    row = {"time": "2026-11-29T12:00:00.000Z", "edit": number, "changes": [change]}
                    file.write(json.dumps(row, separators=(",", ":")) + "\n")
                file.write('{"time":"2026-11-29T12:00:01.000Z","edit":5,"changes":[{"put":352,')
            found = History(path, []).of(352)
            nothing = History(path + ".other", []).of(352)
        self.assertEqual([(row["edit"], row["feature"], "was" in row) for row in found["changes"]],
                         [(3, None, False), (1, feature, True)])
        self.assertIsNone(nothing)
        self.assertIsNone(History(None, []).of(352))


if __name__ == "__main__":
    unittest.main()
