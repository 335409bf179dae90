"""Tests of vtmap/commands/telling.py: the rows of a log that is renamed while they are read. Rows are those of docs of
`vtmap follow --log`."""
import json
import os
import types
import unittest
from unittest import mock

import stand
from vtmap.commands import telling
from vtmap.commands.telling import Tail, Teller

TIME = "2025-11-29T12:45:10.000Z"


def line(number):
    """The line of an edit."""
    return json.dumps({"time": TIME, "edit": number, "changes": []}) + "\n"


def numbers(rows):
    """The edits of rows, and the first and the last one of those that are missing."""
    return [row["missed"] if "missed" in row else row["edit"] for row in rows]


class Tails(stand.InFolder):
    def setUp(self):
        super().setUp()
        self.log = self.path("edits.jsonl")
        # The looks at a log wait for nobody, but for what `between` does.
        sleep = mock.patch.object(telling.time, "sleep", lambda _: self.between())
        sleep.start()
        self.addCleanup(sleep.stop)
        self.between = lambda: None

    def write(self, first, last, name=""):
        """Appends the lines of edits to a file of the log."""
        with open(self.log + name, "a", encoding="utf-8") as file:
            file.writelines(map(line, range(first, last + 1)))

    def rename(self, of, to):
        """Renames a file of the log."""
        os.rename(self.log + of, self.log + to)

    def read_and(self, then):
        """Does something once, as soon as a file was read."""
        read, left = telling.read, [then]

        def other(*words):
            part = read(*words)
            if left:
                left.pop()()
            return part

        patch = mock.patch.object(telling, "read", other)
        patch.start()
        self.addCleanup(patch.stop)

    def turned(self):
        """The log is renamed, with its older file, and goes on in a new one."""
        self.rename(".1", ".2")
        self.rename("", ".1")
        self.write(27, 28)

    def test_files_that_are_renamed_between_two_reads(self):
        self.write(1, 24, ".1")
        self.write(25, 26)
        self.read_and(self.turned)
        rows, _ = Tail(self.log).after(20)
        self.assertEqual(numbers(rows), list(range(21, 29)))

    def test_a_log_that_is_renamed_before_it_is_read(self):
        self.write(1, 24, ".1")
        self.write(25, 26)
        with mock.patch.object(telling, "needed", side_effect=self.needed(self.turned)):
            rows, _ = Tail(self.log).after(24)
        self.assertEqual(numbers(rows), list(range(25, 29)))

    def needed(self, then):
        """The files that are needed, before something is done once."""
        needed, left = telling.needed, [then]

        def other(*words):
            found = needed(*words)
            if left:
                left.pop()()
            return found

        return other

    def test_an_older_file_that_has_no_name_for_a_moment(self):
        self.write(1, 26, ".9")
        self.write(27, 28)
        self.between = lambda: os.path.exists(self.log + ".9") and self.rename(".9", ".1")
        rows, _ = Tail(self.log).after(24)
        self.assertEqual(numbers(rows), [25, 26, 27, 28])

    def test_a_file_that_was_taken_away(self):
        self.write(27, 28)
        rows, place = Tail(self.log).after(24)
        self.assertEqual((numbers(rows), place[1]), ([[25, 26], 27, 28], os.path.getsize(self.log)))
        self.write(31, 31)
        rows, _ = Tail(self.log).after(24)
        self.assertEqual(numbers(rows), [[25, 26], 27, 28, [29, 30], 31])

    def test_a_log_that_is_renamed_behind_the_place(self):
        self.write(1, 24)
        tail = Tail(self.log)
        rows, tail.place = tail.after(0)
        self.write(25, 26)
        self.rename("", ".1")
        self.assertEqual(numbers(tail.after(24)[0]), [25, 26])
        self.write(27, 27)
        self.assertEqual(numbers(tail.after(24)[0]), [25, 26, 27])

    def test_a_log_that_goes_on_behind_the_place(self):
        self.write(1, 24)
        tail = Tail(self.log)
        _, tail.place = tail.after(0)
        self.assertEqual(tail.after(24), ([], tail.place))
        self.write(25, 26)
        self.assertEqual(numbers(tail.after(24)[0]), [25, 26])


class Tellers(stand.InFolder):
    def test_a_log_that_cant_be_read_is_tried_again(self):
        log, told, said = self.path("edits.jsonl", line(1) + "x\n"), self.path("told"), []
        self.path("edits.jsonl.at", "2\n")
        self.path("edits.jsonl.run", "0\n")
        teller = Teller(log, f"cat >> {told}", None, said.append)
        teller.chosen = lambda row: row

        def wait(seconds):
            if seconds == telling.PAUSE:
                self.path("edits.jsonl", line(1) + line(2))
            return teller.number == 2

        teller.is_over = types.SimpleNamespace(wait=wait)
        teller.run(0.1)
        with open(told, encoding="utf-8") as file:
            self.assertEqual(numbers(map(json.loads, file)), [1, 2])
        self.assertEqual((len(said), "tried again in 10 s" in said[0], teller.pause), (1, True, telling.PAUSE))


if __name__ == "__main__":
    unittest.main()
