"""The part `disk-full` of run.py: a file system that has no more room."""
import json
import os
import subprocess

from .import_stand import has_gdal, imported, point_rows, shown, written
from .stand import PROGRAM, Cases, Server, curl, feature, status_of


def disk_full(cases: Cases, folder: str) -> None:
    """A disk of 32 MiB on a file system of 1 MiB, which has no room for its journal, and of 9 MiB, which has none
    for the areas: `format` fails in the first; in the second what is acknowledged is kept, the failure is seen, and
    edits go on after it."""
    small = os.path.join(folder, "small_system")
    os.mkdir(small)
    if (
        os.geteuid() != 0
        or subprocess.run(["mount", "-t", "tmpfs", "-o", "size=1m", "tmpfs", small], capture_output=True).returncode
        != 0
    ):
        cases.say("no tmpfs can be mounted (not root?): no full file system is tried")
        return
    try:
        full_at_format(cases, small)
        subprocess.run(["mount", "-o", "remount,size=9m", small], check=True)
        full_file_system(cases, folder, small)
    finally:
        subprocess.run(["umount", "-l", small], check=False)


def full_at_format(cases, small):
    done = subprocess.run(
        [PROGRAM, "format", os.path.join(small, "full.disk"), "--sectors", "65536"], capture_output=True
    )
    cases.show(
        "disk full: format",
        (done.returncode, done.stdout, done.stderr, os.listdir(small)),
        (1, b"", b"vtserve: Device\n", []),
    )


def full_file_system(cases, folder, small):
    text = feature(last=0, tags={f"k{at}": "x" * 1000 for at in range(30)})
    with Server(small, "full.disk", 65536) as server:
        taken = sum(
            status_of(curl(f"{server.url}/features/{number}", "-X", "PUT", body=text)) == 200 for number in range(100)
        )
        cases.show("disk full: edits, for which the journal has room", taken, 100)
        cases.show(
            "disk full: a publication without room",
            parsed_error(curl(server.url + "/publish", "-X", "POST")),
            (500, b"Device\n"),
        )
        told = [line for line in server.lines() if line.startswith("vtserve: ")]
        cases.show(
            "disk full: the log tells it once", told, ["vtserve: Device: write: No space left on device (os error 28)"]
        )
        again = curl(f"{server.url}/features/0", "-X", "PUT", body=text)
        cases.show("disk full: the next edit", parsed_error(again), (500, b"Broken\n"))
        cases.show(
            "disk full: reads are served",
            (status_of(curl(f"{server.url}/features/0")), status_of(curl(server.url + "/map/0/0/0.mvt"))),
            (200, 200),
        )
        cases.show(
            "disk full: another publication",
            parsed_error(curl(server.url + "/publish", "-X", "POST")),
            (500, b"Broken\n"),
        )
        if has_gdal(cases):
            path = written(folder, "points2.geojson", point_rows())
            status, lines = imported(path, server.url, "--layer", "p", "--first", "900", "--publish")
            cases.show(
                "disk full: an import stops and says why",
                (status, lines[-2].startswith("stopped at feature 900: Broken (")),
                (1, True),
            )
    with Server(small, "full.disk") as server:
        there = [number for number in range(taken) if shown(server, number) == json.loads(text)]
        cases.show("disk full: a new process has each acknowledged edit", len(there), taken)
        reply = curl(f"{server.url}/features/{taken}", "-X", "PUT", body=text)
        cases.show("disk full: and takes another", status_of(reply), 200)
    # Its log lies elsewhere: there is no room for a line either.
    with Server(
        small, "full.disk", more=["--admin", "--stop-when-broken"], log=os.path.join(folder, "full.log")
    ) as server:
        refused = parsed_error(curl(server.url + "/publish", "-X", "POST"))
        cases.show(
            "disk full: --stop-when-broken ends it with 1", (refused, server.child.wait(60)), ((500, b"Device\n"), 1)
        )
        told = [line for line in server.lines() if line.startswith("vtserve: ")]
        cases.show(
            "disk full: and the log tells it once",
            told,
            ["vtserve: Device: write: No space left on device (os error 28)"],
        )
    with Server(small, "full.disk", more=["--admin"]) as server:
        curl(server.url + "/publish", "-X", "POST")
        status = json.loads(curl(server.url + "/admin/status")[2])
        cases.show(
            "disk full: the status says so",
            (status["broken"], status["features"], status["left"]),
            (True, taken + 1, None),
        )
    subprocess.run(["mount", "-o", "remount,size=64m", small], check=True)
    with Server(small, "full.disk") as server:
        there = [number for number in range(taken + 1) if shown(server, number) == json.loads(text)]
        cases.show(
            "disk full: with more room",
            (len(there), status_of(curl(server.url + "/publish", "-X", "POST"))),
            (taken + 1, 200),
        )


def parsed_error(reply):
    return status_of(reply), reply[2]


# ---- killed servers
