"""Tests of what `vtmap undo` takes back of the edits that a log lists, the newest first."""
import unittest

from stand import feature
from vtmap.client.edits import NOTHING, encoded
from vtmap.commands.undo import Undo

ONE, TWO, OTHER = feature(name="one"), feature(name="two"), feature(name="other")


def put(number, made, was):
    return {"put": number, "feature": made, "was": was}


def steps(*changes):
    """The features that are put back, or None where one is deleted, each with what it has to be until then."""
    undo = Undo(changes)
    found = [
        (change.number, None if change.body is None else bytes(change.body), bytes(change.was))
        for change in undo.changes()
    ]
    return found, sorted(undo.stopped), sorted(undo.unknown)


class Steps(unittest.TestCase):
    def test_a_change(self):
        self.assertEqual(steps(put(7, TWO, ONE)), ([(7, encoded(ONE), encoded(TWO))], [], []))

    def test_a_new_feature_is_deleted_and_a_deleted_one_put_back(self):
        self.assertEqual(steps(put(7, ONE, None)), ([(7, None, encoded(ONE))], [], []))
        self.assertEqual(steps({"delete": 7, "was": ONE}), ([(7, encoded(ONE), NOTHING)], [], []))

    def test_several_edits_of_a_feature_are_one_step(self):
        self.assertEqual(steps(put(7, TWO, ONE), put(7, ONE, None)), ([(7, None, encoded(TWO))], [], []))

    def test_what_is_as_it_was_is_not_sent(self):
        self.assertEqual(steps(put(7, ONE, TWO), put(7, TWO, ONE)), ([], [], []))

    def test_what_somebody_has_changed_between_them_is_a_conflict(self):
        # Somebody else has made `other` of `one`: that stays, and only what was made of it since is taken back.
        found = steps(put(7, TWO, OTHER), put(7, ONE, None), put(8, ONE, None))
        self.assertEqual(found, ([(7, encoded(OTHER), encoded(TWO)), (8, None, encoded(ONE))], [7], []))

    def test_what_was_is_not_known(self):
        self.assertEqual(steps({"put": 7, "feature": ONE}, put(7, TWO, OTHER)), ([], [], [7]))


if __name__ == "__main__":
    unittest.main()
