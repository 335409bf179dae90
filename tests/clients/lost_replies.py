"""The part `lost-replies` of run.py: edits that are made, and whose replies don't come. None is made twice, none
takes back what others do in between, and where it can't be known whether one was made the script says so."""
import os
import shutil

from vtmap.client.client import Client
from vtmap.client.edits import checked, delete, put

from .batches import edit_count
from .between import Between, once
from .import_stand import has_gdal, imported, row, written
from .stand import Cases, Server, curl
from .updates import listed, status

EDITS, PLAIN, FEED = "/admin/edits", "/edits", "/admin/edits/from/"


def points(count):
    return [row("Point", [at / 100, at / 100], name=f"point {at}") for at in range(count)]


def point(name):
    """A feature."""
    return {"layer": "p", "minzoom": 0, "maxzoom": 2, "geometry": {"points": [[7, 7]]}, "tags": {"name": name}}


def unchecked(cases: Cases, folder: str) -> None:
    """An import into a server without --admin: the reply to a batch is lost on a connection that is kept."""
    path = written(folder, "unchecked.geojson", points(150))
    with Server(folder, "unchecked", more=()) as server:
        seen = []

        def loses(method, path):
            seen.append(path)
            return path == PLAIN and seen.count(PLAIN) == 2

        with Between(server, loses=loses) as between:
            code, lines = imported(path, between.url, "--layer", "p", "--maxzoom", "0", "--first", "1")
        cases.show(
            "lost replies: three batches are three edits",
            (code, lines[-1], edit_count(server)),
            (0, "150 taken, 0 refused", 3),
        )


def deleted_meanwhile(cases: Cases, folder: str) -> None:
    """A creation is made, its reply is lost, and somebody deletes the feature before the script has asked."""
    path = written(folder, "deleted.geojson", points(10))
    words = ["--layer", "p", "--first", "1"]
    for name, has_feed in (("with the list of edits", True), ("without it", False)):
        with Server(folder, f"deleted {has_feed}") as server:
            is_first = once("POST", EDITS)

            def loses(*asked):
                if is_first(*asked):
                    curl(server.url + "/features/7", "-X", "DELETE")
                    return True
                return False

            def instead(_, path):
                return (404, b"NotFound\n") if path.startswith(FEED) and not has_feed else None

            with Between(server, loses=loses, instead=instead) as between:
                code, lines = imported(path, between.url, *words)
            left = sorted(listed(server))
            cases.show(
                f"lost replies: a feature that somebody deletes isn't made again, {name}",
                (left, status(server)["edits"]),
                ([number for number in range(1, 11) if number != 7], 2),
            )
            told = (
                "10 taken, 0 refused"
                if has_feed
                else "and whether the edit of feature 1 was made isn't known: look at it on the map"
            )
            cases.show(
                f"lost replies: and what is told, {name}",
                (code, any(told in line for line in lines)),
                (0 if has_feed else 3, True),
            )


def by_the_client(cases: Cases, folder: str) -> None:
    """Each kind of edit: made and lost, not made and lost, and on a connection that the server has closed meanwhile."""
    with Server(folder, "by_the_client", 65536) as server:
        def made(name, changes, wanted, edits, is_made=True, has_feed=True):
            before, first = status(server)["edits"], {"POST": 0, "PUT": 0, "DELETE": 0}

            def instead(method, path):
                if method in first and not is_made:
                    first[method] += 1
                    return (0, b"") if first[method] == 1 else None
                return (410, b"Gone\n") if path.startswith(FEED) and not has_feed else None

            def loses(method, _):
                if method in first:
                    first[method] += 1
                return method in first and is_made and first[method] == 1

            with Between(server, loses=loses, instead=instead) as between:
                client = Client(between.url)
                client.status()
                refusals = [str(refusal) for _, refusal in client.make(changes) if refusal]
                client.close()
            found = (
                refusals,
                {number: one["tags"]["name"] for number, one in listed(server).items()},
                status(server)["edits"] - before,
            )
            cases.show(f"lost replies: {name}", found, ([], wanted, edits))

        one, two = point("one"), point("two")
        for has_feed in (True, False):
            more = "" if has_feed else ", where the server doesn't list edits"
            made(
                f"checked creations{more}",
                [checked(put(1, one), None), checked(put(2, one), None)],
                {1: "one", 2: "one"},
                1,
                has_feed=has_feed,
            )
            made(f"a checked change{more}", [checked(put(1, two), one)], {1: "two", 2: "one"}, 1, has_feed=has_feed)
            made(
                f"a checked deletion and a change{more}",
                [checked(delete(2), one), checked(put(1, one), two)],
                {1: "one"},
                1,
                has_feed=has_feed,
            )
            made(f"unchecked ones{more}", [put(1, two), put(3, two)], {1: "two", 3: "two"}, 1, has_feed=has_feed)
            made(f"an unchecked deletion in a batch{more}", [delete(3), put(1, one)], {1: "one"}, 1, has_feed=has_feed)
            made(f"an unchecked deletion alone{more}", [delete(1)], {}, 1, has_feed=has_feed)
        made(
            "checked ones that weren't made",
            [checked(put(1, one), None), checked(put(2, one), None)],
            {1: "one", 2: "one"},
            1,
            is_made=False,
        )
        made("unchecked ones that weren't made", [put(1, two), delete(2)], {1: "two"}, 1, is_made=False)
        client = Client(server.url)
        client.status()
        client.connection.sock.shutdown(2)
        refusals = [str(refusal) for _, refusal in client.make([checked(put(9, one), None)]) if refusal]
        client.close()
        cases.show("lost replies: a connection that has ended before", (refusals, sorted(listed(server))), ([], [1, 9]))


def lost_replies(cases: Cases, folder: str) -> None:
    """Edits without replies."""
    place = os.path.join(folder, "lost_replies")
    os.mkdir(place)
    by_the_client(cases, place)
    if has_gdal(cases):
        unchecked(cases, place)
        deleted_meanwhile(cases, place)
    shutil.rmtree(place)
