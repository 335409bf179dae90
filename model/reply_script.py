"""The part `connections` of the script of `service_runs`: lines of connections, and what each is to be answered by the models beside this file.

`scripts.py` writes it. First the models are held to the worked examples of docs/HTTP.md and docs/FORMATS.md, which no model made.
"""
import sys

import connections
import reply_admin
import reply_boxes
import reply_checked
import reply_contents
import reply_edits
import reply_heads
import reply_hostile
import reply_hostile_edits
import reply_listening
import reply_listings
import reply_publications
import reply_random
import reply_routes
import reply_standby
import reply_tags
import reply_turns
from reply_stand import BODY, Script, Stand, request

CRATE, PART = "service_runs", "connections"


# ---- worked examples

TILE = "1a130a017012090807180122030900002880207802"
SHOWN = '{"geometry":{"points":[[0,0]]},"layer":"p","maxzoom":2,"minzoom":0,"tags":{}}'
METADATA = '{"vector_layers":[{"fields":{},"id":"p","maxzoom":2,"minzoom":0}]}'
# Header, root directory, metadata and the tile. The header: the places and lengths of the four parts, counts, zooms and the whole world.
NUMBERS_OF_ARCHIVE = [127, 9, 136, 66, 202, 0, 202, 21, 3, 2, 1]
END_OF_HEADER = "01010101" + "0002" + "002eb694493a4ecd00d2496bb7c5b132" + "00" + "0000000000000000"
ARCHIVE = b"PMTiles\x03" + b"".join(number.to_bytes(8, "little") for number in NUMBERS_OF_ARCHIVE) + bytes.fromhex(END_OF_HEADER)
ARCHIVE += bytes.fromhex("020005020115150101") + METADATA.encode() + bytes.fromhex(TILE)


def found(kind, content, status="200 OK", more=""):
    content = content if isinstance(content, bytes) else content.encode()
    return f"HTTP/1.1 {status}\r\ncontent-type: {kind}\r\n{more}content-length: {len(content)}\r\n\r\n".encode() + content


def part(asked, content, kind="application/octet-stream", status="206 Partial Content", more=""):
    return found(kind, content, status, f"content-range: bytes {asked}\r\n{more}")


OCTETS, JSON = "application/octet-stream", "application/json"
TWO_POINTS = b'{"changes":[{"put":7,"feature":%s},{"put":8,"feature":%s}]}' % (BODY, BODY)
NO_CONTENT = b"HTTP/1.1 204 No Content\r\n\r\n"
TAG = 'etag: "1-1-223"\r\n'
OF_TILE = 'etag: W/"17-1"\r\n'
CONDITION = found("text/plain", "Condition\n", "412 Precondition Failed")
EXAMPLES = [
    (request("GET", "/map/0/0/0.mvt"), NO_CONTENT),
    (request("GET", "/map.pmtiles"), found("text/plain", "NotFound\n", "404 Not Found")),
    (request("DELETE", "/features/9"), found("text/plain", "NotFound\n", "404 Not Found")),
    (request("PUT", "/features/7", BODY), found(JSON, '{"edit":1}')),
    (request("GET", "/features/7"), found(JSON, SHOWN)),
    (request("GET", "/map/0/0/0.hex"), found("text/plain", TILE)),
    (request("GET", "/map/0/0/0.mvt"), found("application/vnd.mapbox-vector-tile", bytes.fromhex(TILE))),
    (request("GET", "/map/metadata"), found(JSON, METADATA)),
    (request("POST", "/publish"), found(JSON, '{"archive":223,"edits":1,"generation":1}')),
    (request("GET", "/map.pmtiles"), found(OCTETS, ARCHIVE)),
    (request("GET", "/map.pmtiles", b"", "range: bytes=0-126"), part("0-126/223", ARCHIVE[:127])),
    (request("GET", "/map.pmtiles", b"", "range: bytes=0-126", 'if-range: "x"'), part("0-126/223", ARCHIVE[:127])),
    (request("GET", "/map.pmtiles", b"", 'if-none-match: "1-1-223"'), found(OCTETS, ARCHIVE)),
    (request("GET", "/map.pmtiles", b"", "range: bytes=223-"), found(OCTETS, ARCHIVE)),
    (request("GET", "/map.pmtiles", b"", "range: bytes=223-300"), part("*/223", "Range\n", "text/plain", "416 Range Not Satisfiable")),
    (request("POST", "/publish/begin"), found(JSON, '{"left":3}')),
    (request("PUT", "/features/8", BODY), found(JSON, '{"edit":2}')),
    (request("POST", "/publish/step"), found(JSON, '{"left":0}')),
    (request("POST", "/publish/begin"), found(JSON, '{"left":3}')),
    (request("POST", "/publish/cancel"), NO_CONTENT),
    (request("DELETE", "/features/8"), found(JSON, '{"edit":3}')),
    (request("POST", "/edits", TWO_POINTS), found(JSON, '{"edit":4}')),
    (request("GET", "/map/0/0/0.hex"), found("text/plain", "1a1e0a0170120908071801220309000012090808180122030900002880207802")),
    (request("POST", "/edits", b'{"changes":[{"put":9,"feature":%s},{"delete":10}]}' % BODY), found("text/plain", "NotFound\n", "404 Not Found")),
    (request("GET", "/features/9"), found("text/plain", "NotFound\n", "404 Not Found")),
    (request("POST", "/edits", b'{"changes":[]}'), found("text/plain", "E10 Batch\n", "400 Bad Request")),
    (request("POST", "/edits", b'{"changes":[{"put":7,"feature":%s},{"delete":7}]}' % BODY), found("text/plain", "E11 Twice\n", "400 Bad Request")),
    (request("GET", "/edits"), found("text/plain", "Method\n", "405 Method Not Allowed", "allow: POST\r\n")),
    (request("POST", "/map/metadata"), found("text/plain", "Method\n", "405 Method Not Allowed", "allow: GET, HEAD\r\n")),
    (request("PUT", "/features/7", BODY.replace(b'"minzoom":0', b'"minzoom":3')), found("text/plain", "E4 Zoom\n", "400 Bad Request")),
    (request("GET", "/admin/features/from/8"), found(JSON, f'{{"feature":{SHOWN},"id":8}}')),
    (request("GET", "/admin/features/from/9"), found("text/plain", "NotFound\n", "404 Not Found")),
    (request("GET", "/admin/status"), found(JSON, '{"archive":223,"area":{"sectors":94,"used":2},"broken":false,"cells":1024,"digest":"ac3e626469fc4803",'
                                                  '"drafting":null,"edits":4,"features":2,"generation":2,"journal":{"forgotten":0,"places":64,"used":3},"last":8,'
                                                  '"left":null,"published":1,"sectors":256,"stale":1,"version":2}')),
    (request("POST", "/admin/edits", b'{"changes":[{"delete":8,"was":null}]}'), found("text/plain", "Changed 8\n", "409 Conflict")),
    (request("POST", "/admin/edits", b'{"changes":[{"delete":8,"was":%s}]}' % BODY), found(JSON, '{"edit":5}')),
    (b"GET /map/0", found("text/plain", "Head\n", "400 Bad Request").replace(b"\r\n\r\n", b"\r\nconnection: close\r\n\r\n")),
]


# The same where replies have entity tags, of which those of tiles begin with 17.
TAGGED = [
    (request("PUT", "/features/7", BODY, "if-match: *"), CONDITION),
    (request("PUT", "/features/7", BODY, "if-none-match: *"), found(JSON, '{"edit":1}')),
    (request("PUT", "/features/7", BODY, "if-none-match: *"), CONDITION),
    (request("PUT", "/features/7", BODY, 'if-match: "1"'), CONDITION),
    (request("GET", "/map/0/0/0.hex"), found("text/plain", TILE, more=OF_TILE)),
    (request("GET", "/map/0/0/0.hex", b"", 'if-none-match: W/"17-1"'), f"HTTP/1.1 304 Not Modified\r\n{OF_TILE}\r\n".encode()),
    (request("GET", "/map/2/3/3.mvt"), b'HTTP/1.1 204 No Content\r\netag: W/"17-0"\r\n\r\n'),
    (request("POST", "/publish", b"", "if-match: *"), CONDITION),
    (request("POST", "/publish"), found(JSON, '{"archive":223,"edits":1,"generation":1}')),
    (request("GET", "/map.pmtiles"), found(OCTETS, ARCHIVE, more=TAG)),
    (request("GET", "/map.pmtiles", b"", "range: bytes=0-126"), part("0-126/223", ARCHIVE[:127], more=TAG)),
    (request("GET", "/map.pmtiles", b"", "range: bytes=0-126", 'if-range: "1-1-223"'), found(OCTETS, ARCHIVE, more=TAG)),
    (request("GET", "/map.pmtiles", b"", 'if-none-match: "1-1-223"'), f"HTTP/1.1 304 Not Modified\r\n{TAG}\r\n".encode()),
    (request("GET", "/map.pmtiles", b"", 'if-match: "1-1-222"'), CONDITION),
    (request("GET", "/map.pmtiles", b"", 'if-match: "1-1-222"', 'if-match: "1-1-223"'), found(OCTETS, ARCHIVE, more=TAG)),
    (request("DELETE", "/features/7", b"", "if-match: *"), found(JSON, '{"edit":2}')),
    (request("DELETE", "/features/7", b"", "if-none-match: *"), found("text/plain", "NotFound\n", "404 Not Found")),
]


def hold_to(examples, start):
    """Stops where the models answer an example otherwise."""
    stand = Stand()
    stand.start = start
    stand.begin(256)
    for asked, wanted in examples:
        answered = connections.outcome(stand.service, asked, 4096, is_admin=True).written
        if answered != wanted:
            sys.exit(f"{asked}: {answered}, and the example has {wanted}")


BLOCKS = [*reply_heads.BLOCKS, *reply_routes.BLOCKS, *reply_edits.BLOCKS, *reply_publications.BLOCKS, *reply_tags.BLOCKS]
BLOCKS += [reply_random.at_random, *reply_hostile.BLOCKS]
BLOCKS += [*reply_hostile_edits.BLOCKS, *reply_turns.BLOCKS, *reply_admin.BLOCKS, *reply_checked.BLOCKS, *reply_listings.BLOCKS]
BLOCKS += [*reply_listening.BLOCKS, *reply_contents.BLOCKS, *reply_standby.BLOCKS, *reply_boxes.BLOCKS]


def files():
    """The files of the crate, by their names."""
    hold_to(EXAMPLES, None)
    hold_to(TAGGED, 17)
    script = Script()
    for block in BLOCKS:
        block(script)
    return script.files()
