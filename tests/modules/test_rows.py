"""Tests of vtmap/client/rows.py and passing.py: servers of a few lines answer on real connections."""
import http.client
import json
import socket
import threading
import time
import unittest

import stand  # noqa: F401  (the path of vtmap)
from vtmap.client.client import Client
from vtmap.client.feed import Leader, LeftBehind, Standby
from vtmap.client.passing import MORE, Passing
from vtmap.client.rows import WINDOW, Request, in_chunks, reply_in
from vtmap.faults import NoAnswer, Stopped

FEED, AT = "/admin/edits/from/", "/admin/edits/at/"


class Answers(threading.Thread):
    """A server that reads requests, and replies to each as it is told: a status and a content, or None to close; the next connection goes on from there.
    `waits`: it sends nothing before that many requests have come. A reply that can be called is asked for the reply, by the server and the request."""

    def __init__(self, replies, waits=1):
        super().__init__(daemon=True)
        self.listener = socket.create_server(("127.0.0.1", 0))
        self.url = f"http://127.0.0.1:{self.listener.getsockname()[1]}"
        self.replies, self.waits, self.seen = list(replies), waits, []
        self.start()

    def run(self):
        while self.replies:
            connection, _ = self.listener.accept()
            self.answer(connection, connection.makefile("rb"))
            connection.close()
        self.listener.close()

    def answer(self, connection, file):
        told = []
        while self.replies:
            line, length = file.readline(), 0
            if not line:
                return
            while (field := file.readline().strip()) and field:
                if field.lower().startswith(b"content-length:"):
                    length = int(field.split(b":")[1])
            self.seen.append((line.split()[1].decode(), file.read(length)))
            reply = self.replies.pop(0)
            reply = reply(self) if callable(reply) else reply
            if reply is None:
                return
            more = b"Connection: close\r\n" if len(reply) > 2 else b""
            told.append(b"HTTP/1.1 %d X\r\n%sContent-Length: %d\r\n\r\n%s" % (reply[0], more, len(reply[1]), reply[1]))
            if len(self.seen) >= self.waits:
                connection.sendall(b"".join(told))
                told = []
            if more:
                self.linger(connection)
                return

    def linger(self, connection):
        """Ends a connection as a proxy does: what has come and isn't answered must not have the reply dropped."""
        connection.shutdown(socket.SHUT_WR)
        connection.settimeout(5)
        try:
            while connection.recv(65536):
                pass
        except OSError:
            pass

    def paths(self):
        return [path.rpartition("/")[2] for path, _ in self.seen]


def made(number):
    return 200, json.dumps({"edit": number}).encode()


def edit(number, **feature):
    return {"edit": number, "changes": [{"put": number, "feature": feature}]}


def listed(first, end, last=None):
    """The reply that lists the edits from one number to before another."""
    return 200, json.dumps({"edits": [edit(number) for number in range(first, end)], "last": last or end - 1}).encode()


def ended(first, end, digest):
    """The same of a server that tells the digest of its map after the last edit, with which the list ends."""
    return 200, json.dumps({"digest": digest, **json.loads(listed(first, end)[1])}).encode()


class Rows(unittest.TestCase):
    def test_requests_are_sent_before_replies_come(self):
        server = Answers([(200, b"%d" % number) for number in range(8)], waits=8)
        row = Leader(server.url).row()
        row.send(Request("POST", f"/{number}", b"x" * number) for number in range(8))
        found = []
        while row.owed:
            found += [(request.path, reply.content) for request, reply in row.replies()]
        self.assertEqual(found, [(f"/{number}", b"%d" % number) for number in range(8)])
        self.assertEqual(server.seen, [(f"/{number}", b"x" * number) for number in range(8)])

    def test_the_connection_goes_on_afterwards(self):
        server = Answers([(200, b"%d" % number) for number in range(3)], waits=2)
        client = Leader(server.url)
        row = client.row()
        row.send([Request("POST", "/a"), Request("GET", "/b")])
        while row.owed:
            row.replies()
        self.assertEqual(client.ask("GET", "/after"), (200, b"2"))

    def test_a_server_that_closes(self):
        row = Leader(Answers([(200, b"0"), None]).url).row()
        row.send([Request("GET", "/a"), Request("GET", "/b")])
        with self.assertRaises(http.client.HTTPException):
            while row.owed:
                row.replies()

    def test_no_server(self):
        with socket.create_server(("127.0.0.1", 0)) as listener:
            port = listener.getsockname()[1]
        self.assertRaises(NoAnswer, Leader(f"http://127.0.0.1:{port}").row)

    def test_replies_in_pieces(self):
        text = b"HTTP/1.1 200 OK\r\nContent-Length: 3\r\nconnection: Close\r\n\r\nabc"
        for end in range(len(text)):
            self.assertIsNone(reply_in(bytearray(text[:end]), 0))
        self.assertEqual(reply_in(bytearray(b"xy" + text + b"more"), 2), (2 + len(text), (200, b"abc", True)))
        self.assertEqual(reply_in(bytearray(b"HTTP/1.1 204 No Content\r\n\r\n"), 0), (27, (204, b"", False)))

    def test_replies_that_are_none(self):
        for text in (b"SMTP\r\n\r\n", b"HTTP/1.1 200 OK\r\n\r\n", b"HTTP/1.1 200 OK\r\ncontent-length: x\r\n\r\n", b"a" * 70000,
                     b"HTTP/1.1 200 OK\r\ntransfer-encoding: chunked\r\n\r\nx\r\n"):
            self.assertRaises(http.client.HTTPException, reply_in, bytearray(text), 0)

    def test_replies_in_chunks(self):
        head, text = b"HTTP/1.1 200 OK\r\nTransfer-Encoding: chunked\r\n\r\n", b"3;x=y\r\nabc\r\nA\r\n0123456789\r\n0\r\n\r\n"
        self.assertEqual(reply_in(bytearray(head + text + b"more"), 0), (len(head + text), (200, b"abc0123456789", False)))
        for end in range(len(text)):
            self.assertIsNone(in_chunks(bytearray(text[:end]), 0))


class Passed(unittest.TestCase):
    def passing(self, leader, standby, at=4, is_needed=False, **words):
        """What passes on from one of two servers to the other one."""
        self.standby = Standby(standby.url, **words)
        self.standby.at, self.standby.is_needed = at, is_needed
        return Passing(Leader(leader.url), self.standby, 1)

    def run_to_end(self, passing):
        passing.run(lambda: False)

    def test_edits_are_sent_without_waiting(self):
        leader, standby = Answers([listed(5, 8), listed(8, 8)]), Answers([made(5), made(6), made(7)], waits=3)
        passing = self.passing(leader, standby)
        self.run_to_end(passing)
        self.assertEqual((self.standby.at, standby.paths()), (7, list("567")))
        self.assertEqual(leader.paths(), ["5?wait=1&standby", "8?wait=1&standby"])
        self.assertTrue(passing.is_early)

    def test_more_edits_than_one_reply_lists(self):
        leader, standby = Answers([listed(5, 7, 9), listed(7, 10), listed(10, 10)]), Answers(map(made, range(5, 10)))
        self.run_to_end(self.passing(leader, standby))
        self.assertEqual((self.standby.at, leader.paths()[0], leader.paths()[-1]), (9, "5?wait=1&standby", "10?wait=1&standby"))
        self.assertIn(leader.paths()[1], ("7", "7?wait=1&standby"))

    def test_so_many_wait_for_their_replies(self):
        many = 3 * WINDOW
        standby = Answers(map(made, range(5, 5 + many)), waits=WINDOW)
        self.run_to_end(self.passing(Answers([listed(5, 5 + many), listed(5 + many, 5 + many)]), standby))
        self.assertEqual(self.standby.at, 4 + many)

    def test_what_is_made_is_told_before_the_rest_is(self):
        held = threading.Event()

        def slow(_):
            self.assertTrue(held.wait(10))
            return made(6)

        def told(server):
            # The first question that says that edit 5 is there lets edit 6 be made.
            if server.paths()[-1] == "6?standby":
                held.set()
            return listed(int(server.paths()[-1].partition("?")[0]), 7)

        leader = Answers([listed(5, 7)] + [told] * (MORE + 1) + [listed(7, 7)] * (MORE + 2))
        self.run_to_end(self.passing(leader, Answers([made(5), slow]), is_needed=True))
        self.assertEqual(self.standby.at, 6)
        self.assertIn("6?standby", leader.paths())

    def test_nothing_is_told_before_it_is_made(self):
        standby = Answers([(503, b"Memory\n"), (409, b"Next 5\n"), (503, b"Memory\n")])
        leader = Answers([listed(5, 7)] + [listed(7, 7, 6)] * (MORE + 1))
        with self.assertRaises(NoAnswer):
            self.run_to_end(self.passing(leader, standby, is_needed=True))
        self.assertEqual([path for path in leader.paths()[1:] if "standby" in path], [])

    def test_edits_that_come_behind_one_that_wakes(self):
        def few(server):
            return (200, b'{"edits":[],"last":7}') if server.paths()[-1] == "8" else listed(8, 8)

        leader = Answers([listed(5, 8)] + [few] * 40)
        self.run_to_end(self.passing(leader, Answers(map(made, range(5, 8))), is_needed=True))
        self.assertLessEqual(leader.paths().count("8"), MORE)
        self.assertEqual(self.standby.at, 7)

    def test_one_that_is_refused_is_asked_for_again_alone(self):
        # Edit 6 finds no memory, so 7 is refused for its number; both are made then.
        standby = Answers([made(5), (503, b"Memory\n"), (409, b"Next 6\n"), made(6), made(7)])
        self.run_to_end(self.passing(Answers([listed(5, 8), listed(8, 8)]), standby))
        self.assertEqual((self.standby.at, standby.paths()), (7, list("56767")))

    def test_one_behind_a_refused_one_isnt_made_whatever_its_reply_says(self):
        standby = Answers([made(5), (503, b"Memory\n"), made(7), made(6), made(7)])
        self.run_to_end(self.passing(Answers([listed(5, 8), listed(8, 8)]), standby))
        self.assertEqual((self.standby.at, standby.paths()), (7, list("56767")))

    def test_a_full_journal_amid_a_row(self):
        standby = Answers([made(5), (507, b"JournalFull 1 0\n"), (409, b"Next 6\n"), (507, b"JournalFull 1 0\n"), (200, b'{"left":0}'), made(6), made(7)])
        self.run_to_end(self.passing(Answers([listed(5, 8), listed(8, 8)]), standby, publishes=True))
        self.assertEqual((self.standby.at, standby.paths()), (7, ["5", "6", "7", "6", "begin", "6", "7"]))

    def test_a_list_goes_on_from_the_map_with_which_the_last_one_ended(self):
        one, other = "0" * 16, "1" * 16
        leader = [ended(5, 7, one), listed(7, 8, 9), ended(8, 10, other), ended(10, 10, other)]
        standby = Answers([*map(made, range(5, 10)), ended(10, 10, other)])
        self.run_to_end(self.passing(Answers(leader), standby))
        self.assertEqual((self.standby.at, standby.paths()), (9, ["5", "6", f"7?after={one}", "8", "9", "10"]))
        self.assertEqual(self.standby.agreed, (9, other))

    def test_a_map_that_differs_at_the_end(self):
        leader = Answers([ended(5, 7, "0" * 16), ended(7, 7, "0" * 16), (200, b'{"edits":5}')])
        standby = Answers([made(5), made(6), ended(7, 7, "1" * 16)])
        with self.assertRaisesRegex(Stopped, "after edit 6: one of the servers was put back from a copy"):
            self.run_to_end(self.passing(leader, standby))

    def test_an_edit_of_a_map_that_differs(self):
        leader = Answers([ended(5, 6, "0" * 16), ended(6, 7, "1" * 16), ended(7, 7, "1" * 16)])
        refusal = (409, b"Digest\n")
        standby = Answers([made(5), refusal, refusal])
        with self.assertRaisesRegex(Stopped, "edit 6 isn't made"):
            self.run_to_end(self.passing(leader, standby))
        self.assertEqual(standby.paths(), ["5", *["6?after=" + "0" * 16] * 2])

    def test_one_that_is_too_long_is_put_between_two_rows(self):
        edits = [edit(5), edit(6), edit(7, text="x" * 65536), edit(8), edit(9)]
        reply = 200, json.dumps({"edits": edits, "last": 9}).encode()
        standby = Answers(map(made, range(5, 10)))
        self.run_to_end(self.passing(Answers([reply, listed(10, 10)]), standby))
        alone = "/admin/features/7/at/7"
        self.assertEqual((self.standby.at, [path for path, _ in standby.seen]), (
            9, [AT + "5", AT + "6", alone, AT + "8", AT + "9"]))

    def test_an_older_standby_is_given_one_that_is_too_long_by_a_put(self):
        edits = [edit(5, text="x" * 65536), edit(6)]
        reply = 200, json.dumps({"edits": edits, "last": 6}).encode()
        standby = Answers([(404, b"NotFound\n"), (200, b'{"edits":4}'), made(5), made(6)])
        self.run_to_end(self.passing(Answers([reply, listed(7, 7)]), standby))
        self.assertEqual((self.standby.at, [path for path, _ in standby.seen]), (
            6, ["/admin/features/5/at/5", "/admin/status", "/features/5", AT + "6"]))

    def test_one_that_is_too_long_waits_for_those_that_are_on_their_way(self):
        is_listed = threading.Event()

        def slow(_):
            self.assertTrue(is_listed.wait(10))
            time.sleep(0.05)
            return made(5)

        def long(_):
            is_listed.set()
            return 200, json.dumps({"edits": [edit(6, text="x" * 65536)], "last": 6}).encode()

        standby = Answers([slow, made(6)])
        self.run_to_end(self.passing(Answers([listed(5, 6, 6), long, listed(7, 7)]), standby))
        self.assertEqual((self.standby.at, standby.paths()), (6, ["5", "6"]))

    def test_a_standby_of_another_number_begins_again(self):
        standby = Answers([(409, b"Next 3\n")] * 3)
        self.run_to_end(self.passing(Answers([listed(5, 7)]), standby))
        self.assertIsNone(self.standby.at)

    def test_what_was_listed_is_passed_on_when_the_server_is_gone(self):
        standby = Answers([made(5), made(6), made(7)])
        with self.assertRaises(NoAnswer):
            self.run_to_end(self.passing(Answers([listed(5, 8), None]), standby))
        self.assertEqual(self.standby.at, 7)

    def test_a_proxy_that_ends_the_connection(self):
        leader, standby = Answers([(*listed(5, 7), "last"), listed(7, 9), listed(9, 9)]), Answers(map(made, range(5, 9)))
        self.run_to_end(self.passing(leader, standby))
        self.assertEqual(self.standby.at, 8)

    def test_a_proxy_that_ends_the_connection_with_several_questions(self):
        ended = []

        def reply(server):
            number = int(server.paths()[-1].partition("?")[0])
            if number == 8 and not ended:
                time.sleep(0.05)
                ended.append(len(server.seen))
                return *listed(8, 8), "last"
            return listed(number, 9 if ended else 8)

        leader = Answers([reply] * 99)
        self.run_to_end(self.passing(leader, Answers(map(made, range(5, 9))), is_needed=True))
        self.assertEqual((self.standby.at, leader.paths()[ended[0]]), (8, "8?wait=1&standby"))

    def test_edits_that_were_published(self):
        leader = Answers([(410, b"Gone\n"), (200, b'{"edits":9,"published":7}')])
        with self.assertRaises(LeftBehind) as caught:
            self.run_to_end(self.passing(leader, Answers([(200, b"")])))
        self.assertEqual((caught.exception.number, caught.exception.published), (5, 7))

    def test_edits_that_are_published_while_they_are_on_their_way_are_no_loss(self):
        # Edits 5 and 6 are listed. Before 6 is made the server publishes both, and the question that tells of 5 is answered by `Gone`.
        asked = threading.Event()

        def slow(_):
            self.assertTrue(asked.wait(10))
            return made(6)

        def gone(server):
            path = server.paths()[-1]
            if path.startswith("6"):
                asked.set()
                return 410, b"Gone\n"
            return listed(7, 7)

        leader = Answers([listed(5, 7)] + [gone] * 60)
        self.run_to_end(self.passing(leader, Answers([made(5), slow]), is_needed=True))
        self.assertEqual(self.standby.at, 6)

    def test_another_map(self):
        leader = Answers([(404, b"NotFound\n"), (200, b'{"edits":2,"published":0}')])
        with self.assertRaisesRegex(Stopped, "up to 2, and 4 are known"):
            self.run_to_end(self.passing(leader, Answers([(200, b"")])))

    def test_it_ends_when_it_is_enough(self):
        leader = Answers([listed(number, number + 1) for number in range(5, 200)])
        passing = self.passing(leader, Answers(map(made, range(5, 200))))
        end = time.monotonic() + 0.2
        passing.run(lambda: self.standby.at >= 9 or time.monotonic() > end + 10)
        self.assertTrue(9 <= self.standby.at < 12)
        # The connection is free for another request.
        self.assertEqual(passing.leader.ask("GET", "/x")[0], 200)


if __name__ == "__main__":
    unittest.main()
