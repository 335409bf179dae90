"""The part `kills` of run.py: servers that are killed while they are edited, alone and behind nginx."""
import http.client
import os
import shutil
import signal
import threading
import time

from .import_stand import shown
from .stand import Cases, Nginx, Server, curl, feature, field, status_of


def editor(url, first, acknowledged, stop):
    """Puts features one after the other until it is told to stop or gets no reply; notes each that was acknowledged."""
    host, number = url.removeprefix("http://"), first
    while not stop.is_set():
        connection = http.client.HTTPConnection(host, timeout=20)
        try:
            body = feature(last=3, tags={"n": number})
            connection.request("PUT", f"/features/{number % 500}", body, {"Connection": "close"})
            reply = connection.getresponse()
            if reply.status == 200 and reply.read().startswith(b'{"edit":'):
                acknowledged[number % 500] = number
            elif reply.status == 507:
                curl(url + "/publish", "-X", "POST")
                continue
        except (OSError, http.client.HTTPException):
            return number
        finally:
            connection.close()
        number += 1
    return number


def kills(cases: Cases, folder: str) -> None:
    """Four times `kill -9` while a client edits, a publication in between; and tiles through nginx meanwhile."""
    nginx = shutil.which("nginx", path=os.environ.get("PATH", "") + ":/usr/sbin")
    acknowledged, last, port = {}, 0, None
    for round_of in range(4):
        with Server(folder, "killed", port=port) as server:
            port = server.port
            lost = [
                number
                for number, value in acknowledged.items()
                if not value <= ((shown(server, number) or {"tags": {}})["tags"].get("n") or -1) <= last
            ]
            cases.show(
                (
                    f"kills: after {round_of} kills"
                    f" {'each acknowledged edit is there' if round_of else 'the map is empty'}"
                ),
                lost,
                [],
            )
            if round_of == 2:
                cases.show("kills: a publication", status_of(curl(server.url + "/publish", "-X", "POST")), 200)
            stop, result = threading.Event(), []
            thread = threading.Thread(
                target=lambda at: result.append(editor(server.url, at, acknowledged, stop)), args=(last + 1,)
            )
            thread.start()
            time.sleep(0.7)
            server.end(signal.SIGKILL)
            stop.set()
            thread.join()
            last = result[0]
    with Server(folder, "killed", port=port) as server:
        lost = [
            number
            for number, value in acknowledged.items()
            if not value <= ((shown(server, number) or {"tags": {}})["tags"].get("n") or -1) <= last
        ]
        cases.show("kills: after 4 kills each acknowledged edit is there", lost, [])
        cases.say(f"{last} edits, {len(acknowledged)} features")
    if not nginx:
        cases.say("no nginx: no kills behind it")
        return
    kills_behind_nginx(cases, folder, nginx, "as it is kept", [])
    stale = "proxy_cache_use_stale error timeout invalid_header http_502 http_504;"
    kills_behind_nginx(
        cases,
        folder,
        nginx,
        "with background update",
        [(f"            {stale}\n", ""), ("# proxy_cache_", "proxy_cache_")],
    )


def cached(reply):
    """The status of a reply, and what nginx says of its cache."""
    return status_of(reply), field(reply, "x-cache")


def kills_behind_nginx(cases, folder, nginx, name, changes):
    """A tile that nginx has in its cache is served, old, while there is no server; it is new again when there is
    one."""
    disk = f"behind {name}"
    server = Server(folder, disk)
    try:
        curl(server.url + "/features/7", "-X", "PUT", body=feature())
        with Nginx(nginx, folder, server, [*changes, (" 10s;", " 1s;")]) as front:
            url, seen = front.url + "/map/0/0/0.mvt", []
            curl(url)
            for _ in range(2):
                server.end(signal.SIGKILL)
                time.sleep(2.2)
                seen += [cached(curl(url)) for _ in range(5)]
                server.__exit__()
                server = Server(folder, disk, port=server.port)
                seen.append(cached(curl(url)))
            stale = sum(state in ("STALE", "UPDATING") for _, state in seen)
            cases.show(
                f"kills: two behind nginx, {name}: no 502 for a cached tile",
                ({status for status, _ in seen}, stale >= 10),
                ({200}, True),
            )
            cases.show(
                f"kills: nginx, {name}: a tile that isn't cached", status_of(curl(front.url + "/map/1/0/0.mvt")), 200
            )
            curl(server.url + "/features/7", "-X", "DELETE")
            time.sleep(2.2)
            first = status_of(curl(url))
            time.sleep(0.5)
            cases.show(
                f"kills: nginx, {name}: after an edit the first tile and the next",
                (first, status_of(curl(url))),
                (200 if changes else 204, 204),
            )
            server.end(signal.SIGKILL)
            replies = [
                curl(front.url + "/map/2/0/0.mvt", "-X", "PUT"),
                curl(front.url + "/map/2/0/0.mvt"),
                curl(front.url + "/map.pmtiles"),
            ]
            fields = [(status_of(reply), field(reply, "access-control-allow-origin")) for reply in replies]
            cases.show(
                f"kills: nginx, {name}: without a server, replies have their field for other origins",
                fields,
                [(502, "*")] * 3,
            )
            cases.show(
                f"kills: nginx, {name}: clients don't cache errors", field(replies[1], "cache-control"), "no-store"
            )
        shutil.rmtree(front.folder)
    finally:
        server.__exit__()
