#!/usr/bin/env python3
"""What an open page at rest asks for: Chromium shows the page of web/ behind nginx, and nobody edits the map.

    python3 bench/speed/open_page.py [PROGRAM [MINUTES]]    PROGRAM is crates/vtserve/out/vtserve, which `rt run` leaves there

Prints the bytes of an hour, requests and replies with their heads as nginx counts them, of who only looks and of who may edit, by what came in
MINUTES (3) after the first 90 seconds. The map is that of feed.py. Needs nginx and Chromium.
"""
import math
import os
import shutil
import sys
import tempfile
import time
from collections import Counter

MINUTES = float(sys.argv[2]) if len(sys.argv) > 2 else 3
import feed  # noqa: E402
from clients.browser import Browser  # noqa: E402
from clients.stand import TOP, Nginx, Server  # noqa: E402

WIDE, HIGH, ZOOM, FIRST = 1600, 900, 13, 90
NGINX = shutil.which("nginx", path=os.environ.get("PATH", "") + ":/usr/sbin")
COUNTED = ("access_log access.log combined if=$is_logged;",
           "log_format counted '$msec $request_method $uri $status $request_length $bytes_sent'; access_log access.log counted;")


def opened_at():
    """Where the page is opened: the middle of the city, as the page's address has it."""
    column, row = (at + half for at, half in zip(feed.city_features.tiles_at(feed.ZOOM)[0], (feed.COLUMNS / 2, feed.ROWS / 2)))
    share = 2 ** feed.ZOOM
    return f"#{ZOOM}/{math.degrees(math.atan(math.sinh(math.pi * (1 - 2 * row / share))))}/{column / share * 360 - 180}"


def at_rest(name, folder, server, changes):
    """Opens the page, and prints what it asks for."""
    with Nginx(NGINX, folder, server, [COUNTED, *changes]) as front:
        shutil.copytree(os.path.join(TOP, "web"), os.path.join(front.folder, "pages"))
        with Browser(os.path.join(folder, "profile"), WIDE, HIGH) as browser:
            made = browser.open(f"{front.url}/pages/{opened_at()}")
            made.wait("document.getElementById('told').textContent")
            time.sleep(FIRST)
            began = time.time()
            time.sleep(60 * MINUTES)
        with open(os.path.join(front.folder, "access.log"), encoding="utf-8") as file:
            rows = [row for row in map(str.split, file) if float(row[0]) >= began]
    asked = Counter(f"{method} {uri.rpartition('/')[0]} {status}" for _, method, uri, status, _, _ in rows)
    size = sum(int(row[4]) + int(row[5]) for row in rows) * 60 / MINUTES / 1e6
    print(f"an hour of an open page at rest, {name}: {size:.2f} MB ({', '.join(f'{count} {what}' for what, count in sorted(asked.items()))})", flush=True)
    shutil.rmtree(front.folder)


def main():
    with tempfile.TemporaryDirectory() as folder, Server(folder, "opened", 262144, more=("--admin", "--etags")) as server:
        os.chmod(folder, 0o755)
        feed.fill(feed.Kept(server))
        at_rest("who only looks", folder, server, [("allow 127.0.0.1;", "")])
        at_rest("who may edit", folder, server, [])


if __name__ == "__main__":
    main()
