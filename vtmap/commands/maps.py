"""`vtmap maps`: the maps of a machine that serves several. Needs no package."""
from __future__ import annotations

import argparse
import re

from ..client.client import Client
from ..faults import Fault, NoAnswer, Refused, Wrong
from ..machine.machine import DRAWER, GATEWAY, Machine
from ..machine.map_file import MapHere, box, new_map

ABOUT = {"maps": """Lists, adds and removes the maps of a machine that serves several. Run it as root, on that machine.

    vtmap maps
    vtmap maps add north --host north.example.org
    vtmap maps bounds north --bounds 7.2,54.3,7.9,54.8
    vtmap maps remove north
    vtmap maps nginx

A map has a name, a disk file of its own, /var/lib/vtserve/NAME/map.disk, and the file /etc/vtserve/maps/NAME, which has
its ports. Its processes are vtserve@NAME and its companions of systemd. Behind nginx (docs/nginx.conf) it is at /NAME/,
and at / of each --host.

add makes the disk file, unless it is there from a time before, and starts the server and the timers that publish, watch
and save the map; with --wfs also its gateway for QGIS, and with --wmts its pictures. bounds changes the box that the map's TileJSON
(/NAME/map.json) tells clients, who ask for no tile outside of it: give one that features never leave. remove stops them, and keeps the disk file and the backups. nginx
writes what nginx includes anew: after vtserve-wfs-maps.service, one gateway for all maps, was enabled or disabled. No
other map is touched: nginx reads its configuration again, and no request fails."""}
FRONT = "http://localhost:8000"
# The sectors of a disk file that are the usual ones, and the fewest and the most.
SECTORS, LEAST, MOST = 262144, 64, 16777216
MEMORY = re.compile(r"[1-9][0-9]*[KMGT]?")


def bounds(text: str) -> tuple[float, ...]:
    """A box of the command line."""
    try:
        return box(text)
    except Wrong as fault:
        raise argparse.ArgumentTypeError(str(fault)) from None


def options(parser: argparse.ArgumentParser, _: str) -> None:
    """The words of the command."""
    parser.add_argument("action", nargs="?", choices=["add", "bounds", "remove", "nginx"], help="what to do (list the maps)")
    parser.add_argument("name", nargs="?", metavar="NAME", help="the name of a map")
    parser.add_argument("--host", action="append", default=[], help="a host name of the map; several times")
    parser.add_argument("--sectors", type=int, default=SECTORS, help=f"sectors of its disk file ({SECTORS})")
    parser.add_argument("--memory", metavar="SIZE", help="the most memory of its server, such as 512M (1G)")
    parser.add_argument("--port", type=int, help="the port of its server, before its gateway's (8100, 8102, ..)")
    parser.add_argument("--bounds", metavar="W,S,E,N", type=bounds, help="the box of its features in degrees, as --bounds=W,S,E,N; clients ask for no tile outside")
    parser.add_argument("--wfs", action="store_true", help="start its gateway for QGIS too")
    parser.add_argument("--wmts", action="store_true", help="start its pictures too")
    parser.add_argument("--front", metavar="URL", default=FRONT, help=f"the address of nginx, for the list ({FRONT})")
    parser.add_argument("--root", metavar="FOLDER", default="/", help="the folder of /etc and /var, for a try")


def fault_of(words: argparse.Namespace) -> str | None:
    """Why the words can't be meant."""
    if (words.action in (None, "nginx")) != (words.name is None):
        return f"{words.action} {'takes no name' if words.name else 'needs the name of a map'}"
    if not LEAST <= words.sectors <= MOST:
        return f"--sectors is from {LEAST} to {MOST:,}"
    if words.memory and not MEMORY.fullmatch(words.memory):
        return "--memory is a number of bytes, or of K, M, G or T"
    return None


def addresses(one: MapHere, front: str) -> list[str]:
    """The addresses of a map behind nginx."""
    scheme, _, place = front.rstrip("/").partition("://")
    port = re.search(r":[0-9]+$", place)
    return [f"{front.rstrip('/')}/{one.name}/", *(f"{scheme}://{host}{port[0] if port else ''}/" for host in one.hosts)]


def state(one: MapHere) -> str | None:
    """What the server of a map tells of it, None if it doesn't answer."""
    client = Client(f"http://127.0.0.1:{one.port}")
    try:
        status = client.status()
        if status is None:
            return "its server runs without --admin"
        return f"{status['features']:,} features, edit {status['edits']}, generation {status['generation']}"
    except Fault:
        return None
    finally:
        client.close()


def show(maps: list[MapHere], front: str) -> int:
    """Prints the maps, and what their servers say."""
    states = [state(one) for one in maps]
    for one, told in zip(maps, states):
        print(f"{one.name}: {' '.join(addresses(one, front))} port {one.port}: {told or 'its server does not answer'}")
    if not maps:
        print("there is no map: `vtmap maps add NAME` makes one")
    return NoAnswer.status if None in states else 0


def add(machine: Machine, words: argparse.Namespace) -> None:
    """Makes a map, and starts what serves it."""
    maps = machine.maps()
    if words.name in [one.name for one in maps]:
        raise Refused(f"there is a map {words.name} already")
    one = new_map(words.name, words.port, words.host, words.bounds or (), maps)
    machine.check_nginx()
    machine.make_folders(one.name)
    is_new = machine.make_disk(one.name, words.sectors)
    machine.write(one)
    try:
        if words.memory:
            machine.limit(one.name, words.memory)
        machine.start(one, [GATEWAY] * words.wfs + [DRAWER] * words.wmts)
        is_there = machine.tell_nginx(sorted([*maps, one]))
    except BaseException:
        machine.forget(one.name)
        raise
    print(f"{machine.disk(one.name)} {f'is formatted, {words.sectors} sectors' if is_new else 'is kept as it was'}")
    for address in addresses(one, words.front):
        print(f"{one.name}: {address}" + ("" if is_there else " once nginx runs (vtserve-nginx.service)"))


def set_bounds(machine: Machine, words: argparse.Namespace) -> None:
    """Changes the box of a map; without one it has none."""
    one = machine.named(words.name)._replace(bounds=words.bounds or ())
    machine.check_nginx()
    machine.write_bounds(one)
    machine.tell_nginx([one if each.name == one.name else each for each in machine.maps()])
    print(f"{one.name}: {'bounds ' + ','.join(f'{degrees:g}' for degrees in one.bounds) if one.bounds else 'no bounds'}")


def remove(machine: Machine, words: argparse.Namespace) -> None:
    """Stops what serves a map, and forgets it."""
    maps = machine.maps()
    left = [one for one in maps if one.name != words.name]
    if len(left) == len(maps):
        raise Refused(f"there is no map {words.name}")
    machine.tell_nginx(left)
    machine.stop(words.name)
    machine.forget(words.name)
    print(f"{words.name} is removed. Its disk is kept: {machine.disk(words.name)}")


def write_nginx(machine: Machine, words: argparse.Namespace) -> None:
    """Writes what nginx includes anew."""
    machine.check_nginx()
    is_there = machine.tell_nginx(machine.maps())
    print("nginx has the maps as they are" + ("" if is_there else " once it runs (vtserve-nginx.service)"))


def work(words: argparse.Namespace) -> int:
    """Lists, adds or removes."""
    machine = Machine(words.root)
    if words.action is None:
        return show(machine.maps(), words.front)
    try:
        {"add": add, "bounds": set_bounds, "remove": remove, "nginx": write_nginx}[words.action](machine, words)
    except PermissionError as fault:
        raise Refused(f"{fault.filename}: run it as root") from None
    return 0
