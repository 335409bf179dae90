"""The file of a map of this machine, /etc/vtserve/maps/NAME: variables for its units, vtserve@NAME and companions.
Needs no package."""
from __future__ import annotations

import re
import shlex
from typing import NamedTuple

from ..faults import Refused, Wrong

NAME, HOST = re.compile(r"[a-z][a-z0-9-]{0,30}"), re.compile(r"[a-z0-9]([a-z0-9.-]{0,252}[a-z0-9])?")
# The first part of paths that one map has: they can't be names too.
PATHS = ("admin", "edits", "features", "files", "map", "ogc", "pages", "publish", "wfs", "wmts", "xyz")
# Each map has two ports, from these on: its server's, and its gateway's after it. That of its pictures is so far from
# them.
FIRST_PORT, LAST_PORT, FAR = 8100, 65534, 10000
ABOUT = """# The map {name}, by `vtmap maps`. Its units read this file: add variables of their commands, such as VTSERVE_PAUSE.
"""


class MapHere(NamedTuple):
    """A map of this machine: its name, the ports of its server and of its gateway, its own host names, the box in which
    its features are, in degrees from west and south to east and north, and the port of its pictures, 0 if the map is
    older than they are."""

    name: str
    port: int
    gateway: int
    hosts: tuple[str, ...] = ()
    bounds: tuple[float, ...] = ()
    pictures: int = 0

    @property
    def text(self) -> str:
        """The content of its file."""
        hosts, bounds = " ".join(self.hosts), ",".join(f"{degrees:g}" for degrees in self.bounds)
        further = [f"PICTURES={self.pictures}\n"] * bool(self.pictures) + [f"BOUNDS={bounds}\n"] * bool(bounds)
        return (
            ABOUT.format(name=self.name)
            + f'PORT={self.port}\nGATEWAY={self.gateway}\nHOSTS="{hosts}"\n'
            + "".join(further)
        )

    def named(self, text: str) -> str:
        """A word of a command with what this map has in place of {map}, {port} and {gateway}. Raises `Wrong`."""
        try:
            return text.format(map=self.name, port=self.port, gateway=self.gateway)
        except (LookupError, ValueError) as fault:
            raise Wrong(
                f"--maps: {{map}}, {{port}} and {{gateway}} can be named in the other words: {fault}"
            ) from fault


def box(text: str) -> tuple[float, ...]:
    """A box, as --bounds has it: degrees west, south, east, north. Raises `Wrong`."""
    try:
        west, south, east, north = map(float, text.split(","))
    except ValueError:
        raise Wrong(f"{text!r} is no box of degrees: west,south,east,north, such as 7.2,54.3,7.9,54.8") from None
    if not (-180 <= west < east <= 180 and -85.06 <= south < north <= 85.06):
        raise Wrong(
            f"{text!r} is no box of the map: west is less than east, from -180 to 180, and south less than north, "
            "from -85.06 to 85.06"
        )
    return west, south, east, north


def map_of(name: str, text: str) -> MapHere:
    """The map of a file. Raises `Refused`."""
    words = {}
    for line in text.splitlines():
        key, is_said, value = line.partition("=")
        if is_said and not line.lstrip().startswith(("#", ";")):
            words[key.strip()] = value
    try:
        hosts = tuple(" ".join(shlex.split(words.get("HOSTS", ""))).split())
        bounds = box(words["BOUNDS"]) if words.get("BOUNDS") else ()
        return MapHere(name, int(words["PORT"]), int(words["GATEWAY"]), hosts, bounds, int(words.get("PICTURES", 0)))
    except (LookupError, ValueError) as fault:
        raise Refused(f"the file of the map {name} has no PORT and GATEWAY that are numbers ({fault})") from None


def new_map(name: str, port: int | None, hosts: list[str], bounds: tuple[float, ...], others: list[MapHere]) -> MapHere:
    """A map that isn't one of the others yet. Raises `Wrong`, or `Refused`."""
    if not NAME.fullmatch(name) or name in PATHS:
        rule = f"at most 31 of a-z, 0-9 and -, a letter first, and none of {', '.join(PATHS)}"
        raise Wrong(f"{name!r} can't be a map's name: {rule}")
    for host in hosts:
        if not HOST.fullmatch(host):
            raise Wrong(f"{host!r} is no host name, such as north.example.org")
    taken = {host: other.name for other in others for host in other.hosts}
    for host in hosts:
        if host in taken:
            raise Refused(f"{host} is a name of the map {taken[host]}")
    used = {each for other in others for each in (other.port, other.gateway, other.pictures)}
    if port is None:
        port = next(each for each in range(FIRST_PORT, LAST_PORT, 2) if not used & {each, each + 1})
    elif used & {port, port + 1} or not 0 < port <= LAST_PORT:
        raise Refused(f"port {port}, or the one after it, is used by another map, or is none")
    further = (*range(port + FAR, LAST_PORT + 1), *range(port - FAR, 0, -1))
    return MapHere(name, port, port + 1, tuple(hosts), bounds, next(each for each in further if each not in used))
