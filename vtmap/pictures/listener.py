"""HTTP for pictures of the map: WMTS, and tiles by their paths. Needs no package.

Addresses, hosts and pages of other origins are judged as the gateway of `vtmap wfs` judges them, whose handler this one
is made of. """
from __future__ import annotations

import re
from typing import Any

from ..faults import Fault, NoAnswer, Refused, Stopped
from ..gateway.listener import HERE, SAFETY, TEXT, Handler, Listener, broken
from ..markup import sayable
from .painters import Busy
from .tiles import Picture, Tiles, is_place
from .wmts import PNG, Asked, Report, by_path, by_query
from .wmts_texts import capabilities, report

WMTS, XML = "/wmts", "text/xml; charset=utf-8"
PATH = re.compile(r"/xyz/(0|[1-9][0-9]{0,8})/(0|[1-9][0-9]{0,8})/(0|[1-9][0-9]{0,8})(@2x)?\.png")
XYZ = "/xyz/"
READ = "GET, HEAD, OPTIONS"
# The seconds for which a picture isn't asked for again, as those of a tile in docs/nginx.conf.
FRESH = 10
PUBLIC = [("Access-Control-Allow-Origin", "*"), ("Access-Control-Allow-Headers", "*")]


class PictureHandler(Handler):
    """One connection. `tiles` has the pictures, `title` and `bounds` are those of the map."""

    tiles: Tiles
    title: str
    bounds: tuple[float, ...]

    def do_GET(self) -> None:
        """Answers WMTS, and paths of tiles."""
        path, _, query = self.path.partition("?")
        if path in (WMTS, WMTS + "/"):
            self.answer_wmts(lambda: by_query(query))
        elif path.startswith(WMTS + "/"):
            self.answer_wmts(lambda: by_path(path.removeprefix(WMTS)))
        elif path.startswith(XYZ):
            self.answer_path(PATH.fullmatch(path))
        else:
            self.reply(404, b"NotFound", TEXT)

    do_HEAD = do_GET

    def do_OPTIONS(self) -> None:
        """Says what may be asked."""
        self.reply(204, b"", None, [("Allow", READ), ("Access-Control-Allow-Methods", READ)])

    def not_allowed(self) -> None:
        """Refuses what would change something. A body isn't read."""
        self.refuse(405, "tiles are read by GET", [("Allow", READ)])

    do_POST = do_PUT = do_DELETE = do_PATCH = not_allowed

    # ---- what is asked for

    def answer_wmts(self, asked: Any) -> None:
        """Answers a request of WMTS. `asked`: says what it asks for."""
        try:
            found = asked()
            if found is None:
                self.reply(404, b"NotFound", TEXT)
            elif found.place is None:
                self.reply(200, capabilities(self.address(WMTS), self.title, self.bounds).encode(), XML)
            else:
                self.send_picture(self.picture(found, 1))
            return
        except Report as fault:
            refused = fault
        except Busy as fault:
            refused = Report("NoApplicableCode", "", str(fault), 503)
        except (NoAnswer, Stopped) as fault:
            refused = Report("NoApplicableCode", "", f"the map's server: {fault}", 502)
        except Refused as fault:
            refused = Report("NoApplicableCode", "", str(fault), 500)
        except ValueError:
            refused = Report("InvalidParameterValue", "", "the query has too many parts")
        except Exception as fault:
            refused = Report("NoApplicableCode", "", broken(fault), 500)
        self.reply(refused.http_status, report(refused).encode(errors="replace"), XML)

    def answer_path(self, found: Any) -> None:
        """Answers a path of a tile."""
        zoom, column, row = map(int, found.groups()[:3]) if found else (-1, 0, 0)
        if not is_place(zoom, column, row):
            self.reply(404, b"NotFound: /xyz/ZOOM/COLUMN/ROW.png, or @2x.png", TEXT)
            return
        try:
            self.send_picture(self.picture(Asked((zoom, column, row)), 2 if found[4] else 1))
            return
        except Busy as fault:
            status, text = 503, str(fault)
        except (NoAnswer, Stopped) as fault:
            status, text = 502, f"the map's server: {fault}"
        except Fault as fault:
            status, text = 500, str(fault)
        except Exception as fault:
            status, text = 500, broken(fault)
        self.reply(status, sayable(text).encode(errors="replace"), TEXT)

    def picture(self, asked: Asked, scale: int) -> Picture:
        """A picture that somebody asks for."""
        assert asked.place is not None
        return self.tiles.picture(self.person(), asked.place, scale, asked.is_transparent)

    # ---- replies

    def send_picture(self, picture: Picture) -> None:
        """Sends a picture, unless the client has it already."""
        fields = [("ETag", picture.tag), ("Cache-Control", f"max-age={FRESH}"), *SAFETY, *PUBLIC]
        tags = [tag.strip() for tag in self.headers.get("if-none-match", "").split(",")]
        if picture.tag in tags or "*" in tags:
            self.write(304, b"", fields)
        else:
            self.write(200, picture.data, [("Content-Type", PNG), ("Content-Length", str(len(picture.data))), *fields])

    def reply(self, status: int, data: bytes, kind: str | None, more: Any = ()) -> None:
        """Sends another reply, which pages of all origins may read."""
        waits = [("Retry-After", "5")] if status == 503 else []
        super().reply(status, data, kind, [*more, *waits, *PUBLIC])


def listener(port: int, tiles: Tiles, **known: Any) -> Listener:
    """Listens on a port. `known`: the title and the bounds of the map, and whether it is behind nginx."""
    handler = type("Here", (PictureHandler,), {"tiles": tiles, **known})
    try:
        return Listener((HERE, port), handler)
    except OSError as fault:
        raise Refused(f"port {port} of {HERE} can't be opened: {fault.strerror}") from fault
