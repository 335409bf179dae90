"""Tests of vtmap/files/missed_edits.py: gaps of a log of edits that nginx's log, or the gateway's, fills. The rows are
those of docs of `vtmap follow --log`, the lines those of `log_format edits` in docs/nginx.conf."""
import json
import unittest

import stand
from vtmap.files.missed_edits import Missed
from vtmap.files.proxy_log import line_of

START = 1_764_420_300


def row(second, number, *changes):
    """A row of the log, whose edit was seen at a second."""
    return {"time": at(second), "edit": number, "changes": list(changes)}


def missed(second, first, last):
    """The row of a gap."""
    return {"time": at(second), "missed": [first, last]}


def at(second):
    """The time of a second."""
    return f"2025-11-29T12:45:{second:02d}.000Z"


def put(number, name, *was):
    """A change that puts a point, and what it replaced if that is given."""
    change = {"put": number, "feature": stand.feature(name=name)}
    return {**change, "was": was[0] and stand.feature(name=was[0])} if was else change


def delete(number, *was):
    """A change that deletes a point."""
    return {"delete": number, **({"was": stand.feature(name=was[0])} if was else {})}


def line(second, request, body):
    """A line of nginx."""
    said = json.dumps(body) if body is not None else ""
    return json.dumps({"time": START + second + 0.5, "person": "anna", "address": "", "request": request, "body": said})


def batch(second, *changes):
    """A line of nginx about a checked edit."""
    return line(second, "POST /admin/edits", {"changes": list(changes)})


def single(second, number, name):
    """A line of nginx about a feature that is put or deleted."""
    if name is None:
        return line(second, f"DELETE /features/{number}", None)
    return line(second, f"PUT /features/{number}", stand.feature(name=name))


def rows(log, lines):
    """The edits of a log that is filled, without their times."""
    found = Missed(lambda: iter(log), lines).rows()
    return [(one["edit"], one["changes"]) if "edit" in one else one["missed"] for one in found]


BEFORE = row(5, 1, put(7, "a", None))
BEGUN = (1, [put(7, "a", None)])


class Gaps(unittest.TestCase):
    def test_times_are_those_of_the_lines(self):
        self.assertEqual(json.loads(line(0, "", None))["time"], 1764420300.5)
        (made,) = list(Missed(lambda: iter([missed(9, 1, 1)]), [batch(5, put(7, "a", None))]).rows())
        self.assertEqual(made["time"], "2025-11-29T12:45:05.500Z")

    def test_a_gap_is_filled_in_the_order_of_the_times(self):
        log = [BEFORE, missed(20, 2, 4), row(25, 5, put(7, "d", "c"))]
        lines = [single(4, 7, "a"), single(12, 8, None), batch(15, put(7, "c", "b")), single(10, 7, "b"), single(24, 7, "d")]
        self.assertEqual(
            rows(log, lines),
            [BEGUN, (2, [put(7, "b", "a")]), (3, [delete(8)]), (4, [put(7, "c", "b")]), (5, [put(7, "d", "c")])],
        )

    def test_fewer_or_more_requests_fill_nothing(self):
        log = [BEFORE, missed(20, 2, 3)]
        for lines in ([single(10, 7, "b")], [single(10 + at, 7, f"{at}") for at in range(3)], []):
            self.assertEqual(rows(log, lines), [BEGUN, [2, 3]], len(lines))

    def test_requests_of_other_times_and_of_other_edits_are_none_of_the_gap(self):
        log = [BEFORE, missed(20, 2, 2), row(30, 3, put(7, "b", "b"))]
        lines = [single(1, 9, "old"), single(4, 7, "a"), single(10, 7, "b"), single(29, 7, "b"), single(40, 9, "new")]
        self.assertEqual(rows(log, lines), [BEGUN, (2, [put(7, "b", "a")]), (3, [put(7, "b", "b")])])

    def test_an_edit_that_was_sent_in_that_time_and_read_later(self):
        log = [BEFORE, missed(20, 2, 2), row(22, 3, put(8, "x", None))]
        lines = [single(10, 7, "b"), single(15, 8, "x")]
        self.assertEqual(rows(log, lines), [BEGUN, (2, [put(7, "b", "a")]), (3, [put(8, "x", None)])])

    def test_the_gateway_and_numbered_edits_say_their_numbers(self):
        log = [BEFORE, missed(20, 2, 3)]
        second = json.loads(line_of("ann", json.dumps({"changes": [put(7, "c", "b")]}).encode(), 3))
        first = line(16, "POST /admin/edits/at/2", {"changes": [put(7, "b")]})
        lines = [json.dumps({**second, "time": START + 12.5}), first]
        self.assertEqual(rows(log, lines), [BEGUN, (2, [put(7, "b", "a")]), (3, [put(7, "c", "b")])])
        self.assertNotIn("edit", json.loads(line_of("ann", b"{}")))

    def test_an_edit_that_nginx_passed_from_the_gateway_is_one(self):
        log = [BEFORE, missed(20, 2, 2)]
        made = json.loads(line_of("ann", json.dumps({"changes": [put(7, "b", "a")]}).encode(), 2))
        lines = [json.dumps({**made, "time": START + 12.5}), batch(12, put(7, "b", "a"))]
        self.assertEqual(rows(log, lines), [BEGUN, (2, [put(7, "b", "a")])])

    def test_what_the_edits_around_it_contradict_fills_nothing(self):
        log = [BEFORE, missed(20, 2, 2), row(25, 3, put(7, "c", "x"))]
        last = (3, [put(7, "c", "x")])
        self.assertEqual(rows(log, [single(10, 7, "b")]), [BEGUN, [2, 2], last])
        self.assertEqual(rows(log, [batch(10, put(7, "x", "y"))]), [BEGUN, [2, 2], last])
        self.assertEqual(rows(log, [single(10, 7, "x")]), [BEGUN, (2, [put(7, "x", "a")]), last])

    def test_what_an_edit_replaced_is_known_by_the_checked_edit(self):
        log = [row(5, 1, put(7, "b"), delete(8)), row(6, 2, put(9, "n"))]
        lines = [batch(4, put(7, "b", "a"), delete(8, "z")), single(5, 9, "n")]
        self.assertEqual(rows(log, lines), [(1, [put(7, "b", "a"), delete(8, "z")]), (2, [put(9, "n")])])

    def test_after_a_gap_that_stays_nothing_is_known_of_before(self):
        log = [BEFORE, missed(20, 2, 2), row(25, 3, put(7, "c"))]
        self.assertEqual(rows(log, []), [BEGUN, [2, 2], (3, [put(7, "c")])])
        self.assertEqual(rows(log, [single(10, 7, "b")]), [BEGUN, (2, [put(7, "b", "a")]), (3, [put(7, "c", "b")])])

    def test_lines_that_are_no_edits_are_left_out(self):
        log = [BEFORE, missed(20, 2, 2)]
        lines = ["", "{}", "[]", '{"time":1,"person":"","address":"","request":"GET /","body":""}', single(10, 7, "b")]
        self.assertEqual(rows(log, lines)[1], (2, [put(7, "b", "a")]))


if __name__ == "__main__":
    unittest.main()
