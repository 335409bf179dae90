"""What the parts `wfs`, `wfs-deaths` and `ogc` of run.py share: a process of `vtmap wfs`, and a GIS that reads and
saves by WFS as QGIS does."""
import json
import os
import re
import signal
import subprocess
import urllib.parse
import urllib.request
import xml.etree.ElementTree as tree
from collections.abc import Iterable, Sequence
from typing import Any, Optional
from xml.sax.saxutils import escape

from .stand import VTMAP, curl, free_port, status_of

XML = "Content-Type: text/xml"
GML = 'xmlns="http://www.opengis.net/wfs" xmlns:ogc="http://www.opengis.net/ogc" xmlns:gml="http://www.opengis.net/gml"'


class Gateway:
    """A process of `vtmap wfs` for the server at a URL."""

    def __init__(
        self, folder: str, url: str, *more: str, port: Optional[int] = None, under: Iterable[str] = ()
    ) -> None:
        self.port, self.path = port or free_port(), os.path.join(folder, "gateway.log")
        self.url = f"http://127.0.0.1:{self.port}"
        self.log = open(self.path, "ab")
        words = [*under, *VTMAP, "wfs", "--port", str(self.port), "--url", url, *more]
        self.child = subprocess.Popen(words, stdout=subprocess.PIPE, stderr=self.log, text=True)
        self.told = []
        while line := self.child.stdout.readline():
            self.told.append(line.rstrip())
            if line.startswith("http://127.0.0.1"):
                break

    def end(self, by: int = signal.SIGTERM) -> tuple[int, list[str]]:
        """Ends it. Returns its status and what it printed since it listens."""
        self.child.send_signal(by)
        rest = self.child.stdout.read().splitlines()
        return self.child.wait(60), rest

    def __enter__(self) -> "Gateway":
        return self

    def __exit__(self, *fault: object) -> None:
        if self.child.poll() is None:
            self.end(signal.SIGKILL)
        self.child.stdout.close()
        self.log.close()


def text_of(url: str, *words: str, body: Optional[str] = None) -> str:
    """The content of a reply, as a text: by curl with these words, and otherwise by Python, which is faster."""
    if words:
        return curl(url, *words, *(["-H", XML] if body is not None else []), body=body)[2].decode()
    asked = urllib.request.Request(url, body.encode() if body else None, {"Content-Type": "text/xml"})
    with urllib.request.urlopen(asked, timeout=120) as reply:
        return reply.read().decode()


class Gis:
    """A layer of a GIS: it asks for the capabilities first, and then at the address that they name."""

    def __init__(self, gateway: Any, layer: str, version: str = "2.0.0", words: Sequence[str] = ()) -> None:
        self.layer, self.version, self.words = layer, version, words
        told = text_of(f"{gateway.url}/wfs?SERVICE=WFS&REQUEST=GetCapabilities&ACCEPTVERSIONS={version}", *words)
        found = re.search(r'Get xlink:href="([^"]*?)\?"', told)
        self.url = found[1] if found else ""
        # The ids that it has, by the numbers of features: the first one stays.
        self.fids: dict[int, Optional[str]] = {}

    def get(self, request: str, **given: object) -> str:
        """The text of a reply."""
        names = "TYPENAMES" if self.version == "2.0.0" else "TYPENAME"
        query = urllib.parse.urlencode(
            {"SERVICE": "WFS", "VERSION": self.version, "REQUEST": request, names: f"v:{self.layer}", **given}
        )
        return text_of(f"{self.url}?{query}", *self.words)

    def rows(self, **given: object) -> dict[int, dict[str, Any]]:
        """The features by their numbers: what each property says."""
        found = {}
        for member in tree.fromstring(self.get("GetFeature", **given)).iter(f"{{urn:vtserve}}{self.layer}"):
            cells = {child.tag.rpartition("}")[2]: child for child in member}
            number = int(cells["feature_id"].text or "")
            self.fids.setdefault(number, member.get(next(key for key in member.attrib if key.endswith("}id"))))
            found[number] = {name: cell.text if len(cell) == 0 else cell[0] for name, cell in cells.items()}
        return found

    def anew(self, **given: object) -> dict[int, dict[str, Any]]:
        """The features as after F5: it forgets what it has."""
        self.fids.clear()
        return self.rows(**given)

    def update(self, number: int, **values: object) -> str:
        """The action that changes a feature."""
        made = "".join(
            f"<Property><Name>{name}</Name>{'' if value is None else f'<Value>{value}</Value>'}</Property>"
            for name, value in values.items()
        )
        return f'<Update typeName="v:{self.layer}">{made}{self.named(number)}</Update>'

    def delete(self, number: int) -> str:
        """The action that deletes a feature."""
        return f'<Delete typeName="v:{self.layer}">{self.named(number)}</Delete>'

    def named(self, number: int) -> str:
        return f'<ogc:Filter><ogc:FeatureId fid="{self.fids[number]}"/></ogc:Filter>'

    def insert(self, shape: str, **values: object) -> str:
        """The action that adds a feature."""
        inner = "".join(f"<{name}>{escape(str(value))}</{name}>" for name, value in values.items())
        return f'<Insert><v:{self.layer} xmlns:v="urn:vtserve"><geom>{shape}</geom>{inner}</v:{self.layer}></Insert>'

    def save(self, *actions: str) -> str:
        """What it is told after it has saved: `SUCCESS` with the ids of new features, or why it isn't saved."""
        return self.send(f'<Transaction {GML} version="1.0.0" service="WFS">{"".join(actions)}</Transaction>')

    def send(self, body: str) -> str:
        """The same, of a whole body."""
        told = text_of(self.url, *self.words, body=body)
        fault = re.search("<ows:ExceptionText>(.*?)</ows:ExceptionText>", told, re.DOTALL)
        return (
            fault[1] if fault else " ".join([*re.findall("SUCCESS", told), *re.findall('fid="([^"]*)"', told)]) or told
        )


def triangle(x: float, y: float, side: float) -> str:
    """A triangle in GML 2, of which a corner and a side are given in metres."""
    ring = " ".join(f"{east},{north}" for east, north in ((x, y), (x + side, y), (x + side, y + side), (x, y)))
    line = f"<gml:LinearRing><gml:coordinates>{ring}</gml:coordinates></gml:LinearRing>"
    shape = f"<gml:outerBoundaryIs>{line}</gml:outerBoundaryIs>"
    return f'<gml:Polygon srsName="EPSG:3857">{shape}</gml:Polygon>'


def point(x: float, y: float) -> str:
    """A point in GML 2, as QGIS writes it."""
    return f'<gml:Point srsName="EPSG:3857"><gml:coordinates cs="," ts=" ">{x!r},{y!r}</gml:coordinates></gml:Point>'


def feature_at(url: str, number: int) -> Any:
    """A feature of the map, or None."""
    reply = curl(f"{url}/features/{number}")
    return json.loads(reply[2]) if status_of(reply) == 200 else None


def map_at(url: str) -> dict[int, dict]:
    """All features of the map by their ids."""
    found, first = {}, 0
    while first is not None:
        page = json.loads(text_of(f"{url}/admin/features/page/{first}"))
        found.update((row["id"], row["feature"]) for row in page["features"])
        first = page["next"]
    return found


def put_at(url: str, number: int, **tags: object) -> None:
    """Somebody else changes the tags of a feature."""
    curl(f"{url}/features/{number}", "-X", "PUT", body=json.dumps({**feature_at(url, number), "tags": tags}))


def edits_at(url: str) -> int:
    """How many edits the map has had."""
    return json.loads(curl(f"{url}/admin/status")[2])["edits"]
