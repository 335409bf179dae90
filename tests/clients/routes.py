"""The part `routes` of run.py: each route, with replies byte for byte."""
import os
import re
import subprocess

from .stand import (
    BYTES,
    JSON,
    METADATA,
    MVT,
    PROGRAM,
    SHOWN,
    TEXT,
    TILE,
    Cases,
    Server,
    archive,
    curl,
    feature,
    refusal,
    same,
    status_of,
    wanted,
)


def routes(cases: Cases, folder: str) -> None:
    """Each route."""
    with Server(folder, "routes") as server:
        url = server.url
        cases.show("serve says where", server.told, f"serving on 127.0.0.1:{server.port}\n")
        same(cases, "a number without a feature", curl(url + "/features/7"), refusal(404, "NotFound"))
        same(cases, "an empty map's tile", curl(url + "/map/0/0/0.mvt"), wanted(204))
        same(cases, "an empty map's tile as hex", curl(url + "/map/0/0/0.hex"), wanted(204))
        same(cases, "no archive yet", curl(url + "/map.pmtiles"), refusal(404, "NotFound"))
        same(cases, "PUT", curl(url + "/features/7", "-X", "PUT", body=feature()), wanted(200, JSON, '{"edit":1}'))
        same(cases, "GET of a feature", curl(url + "/features/7"), wanted(200, JSON, SHOWN))
        for zoom, column, row in [(0, 0, 0), (1, 0, 0), (2, 0, 0)]:
            path = f"{url}/map/{zoom}/{column}/{row}"
            same(cases, f"tile {zoom}/{column}/{row}", curl(path + ".mvt"), wanted(200, MVT, bytes.fromhex(TILE)))
            same(cases, f"tile {zoom}/{column}/{row} as hex", curl(path + ".hex"), wanted(200, TEXT, TILE))
        for zoom, column, row in [
            (1, 1, 1),
            (2, 3, 0),
            (3, 0, 0),
            (16, 65535, 65535),
            (17, 0, 1),
            (19, 524287, 524287),
        ]:
            same(
                cases,
                f"tile {zoom}/{column}/{row} shows nothing",
                curl(f"{url}/map/{zoom}/{column}/{row}.mvt"),
                wanted(204),
            )
        same(cases, "a query isn't looked at", curl(url + "/map/0/0/0.hex?a=b"), wanted(200, TEXT, TILE))
        same(cases, "metadata", curl(url + "/map/metadata"), wanted(200, JSON, METADATA))
        for path, kind, length in [
            ("/features/7", JSON, len(SHOWN)),
            ("/map/0/0/0.mvt", MVT, 21),
            ("/map/metadata", JSON, len(METADATA)),
        ]:
            head = ("HTTP/1.1 200 OK", [("content-type", kind), ("content-length", str(length))], b"")
            cases.show(f"HEAD of {path}", curl(url + path, "--head"), head)
        whole = archive()
        said = '{"archive":%d,"edits":1,"generation":1}' % len(whole)
        same(cases, "a publication", curl(url + "/publish", "-X", "POST"), wanted(200, JSON, said))
        same(cases, "the archive, as the standard has it", curl(url + "/map.pmtiles"), wanted(200, BYTES, whole))
        head = ("HTTP/1.1 200 OK", [("content-type", BYTES), ("content-length", str(len(whole)))], b"")
        cases.show("HEAD of it", curl(url + "/map.pmtiles", "--head"), head)
        parts = [
            ("0-6", 0, 7),
            ("0-126", 0, 127),
            ("00-000", 0, 1),
            ("200-999", 200, len(whole)),
            ("222-222", 222, 223),
        ]
        for asked, first, end in parts:
            more = [("content-range", f"bytes {first}-{end - 1}/{len(whole)}")]
            reply = curl(url + "/map.pmtiles", "-H", f"Range: bytes={asked}")
            same(cases, f"bytes {asked} of it", reply, wanted(206, BYTES, whole[first:end], more=more))
        beyond = refusal(416, "Range", more=[("content-range", f"bytes */{len(whole)}")])
        same(cases, "bytes behind its end", curl(url + "/map.pmtiles", "-H", f"Range: bytes={len(whole)}-999"), beyond)
        for asked in ["bytes=-5", "bytes=0-", "bytes=9-8", "bytes=0-1,3-4", "Bytes=0-1", "bytes = 0-1"]:
            reply = curl(url + "/map.pmtiles", "-H", f"Range: {asked}")
            same(cases, f"range: {asked} is as none", reply, wanted(200, BYTES, whole))
        part = wanted(206, BYTES, whole[:7], more=[("content-range", f"bytes 0-6/{len(whole)}")])
        for condition in ("If-Range: x", 'If-Match: "1-1-1"', "If-None-Match: *"):
            reply = curl(url + "/map.pmtiles", "-H", "Range: bytes=0-6", "-H", condition)
            same(cases, f"without --etags {condition} isn't looked at", reply, part)
        same(cases, "a step of no publication", curl(url + "/publish/step", "-X", "POST"), refusal(409, "Idle"))
        same(cases, "a cancellation of none", curl(url + "/publish/cancel", "-X", "POST"), refusal(409, "Idle"))
        begun = curl(url + "/publish/begin", "-X", "POST")
        cases.show(
            "a publication begins",
            (status_of(begun), re.fullmatch(rb'\{"left":[1-9][0-9]*\}', begun[2]) is not None),
            (200, True),
        )
        same(cases, "a second one can't", curl(url + "/publish/begin", "-X", "POST"), refusal(409, "Busy"))
        same(cases, "nor one that is whole", curl(url + "/publish", "-X", "POST"), refusal(409, "Busy"))
        same(cases, "it is given up", curl(url + "/publish/cancel", "-X", "POST"), wanted(204))
        curl(url + "/publish/begin", "-X", "POST")
        same(
            cases,
            "an edit between the steps",
            curl(url + "/features/8", "-X", "PUT", body=feature("q")),
            wanted(200, JSON, '{"edit":2}'),
        )
        same(cases, "the last step", curl(url + "/publish/step", "-X", "POST"), wanted(200, JSON, '{"left":0}'))
        same(cases, "the archive is that of the beginning", curl(url + "/map.pmtiles"), wanted(200, BYTES, whole))
        same(cases, "DELETE", curl(url + "/features/8", "-X", "DELETE"), wanted(200, JSON, '{"edit":3}'))
        same(cases, "it is gone", curl(url + "/features/8"), refusal(404, "NotFound"))
        path = os.path.join(folder, "map.pmtiles")
        subprocess.run(["curl", "--silent", "--output", path, url + "/map.pmtiles"], check=True)
        judged = subprocess.run([PROGRAM, "verify", path], capture_output=True, text=True)
        cases.show(
            "verify of what curl kept", (judged.returncode, judged.stdout), (0, "ok: 3 tiles, 2 entries, 1 contents\n")
        )
