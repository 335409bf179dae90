"""The maps of a machine, for one gateway of all (`vtmap wfs --maps`): each is opened by the first request for it, and
gives up its memory once nobody asks. Needs no package."""
from __future__ import annotations

import argparse
import os
import threading
import time
from typing import Any

from ..faults import Fault, Refused, Wrong
from ..machine.machine import MAPS, Machine
from ..machine.map_file import NAME, MapHere, map_of
from ..shown import shown
from .one_map import OneMap
from .projections import Systems

# The words in which a map is named, and those of them that are files or folders, whose folders are made.
NAMED, FILES = ("url", "state", "log", "schema", "files", "history", "nginx"), ("state", "log", "schema", "files")
# How often it is looked which maps nobody asks for, and which are gone.
LOOK = 30


def words_of(words: argparse.Namespace, one: MapHere) -> argparse.Namespace:
    """The words of the command for one of the maps. Raises `Wrong`."""

    def named(value: Any) -> Any:
        return (
            [named(each) for each in value]
            if isinstance(value, list)
            else value and value.format(map=one.name, port=one.port, gateway=one.gateway)
        )

    try:
        return argparse.Namespace(**{**vars(words), **{name: named(getattr(words, name)) for name in NAMED}})
    except (LookupError, ValueError) as fault:
        raise Wrong(f"--maps: {{map}}, {{port}} and {{gateway}} can be named in the other words: {fault}") from fault


class Place:
    """Where a map is kept while it is opened, used or closed. `here`: its file as it was read."""

    def __init__(self) -> None:
        self.lock = threading.Lock()
        self.here: MapHere | None = None
        self.one: OneMap | None = None


class Maps:
    """The maps of a machine. `idle`: after how many seconds without a request one gives up its memory."""

    def __init__(self, machine: Machine, words: argparse.Namespace, idle: float) -> None:
        self.machine, self.words, self.idle, self.systems = machine, words, idle, Systems(words.crs)
        self.lock, self.places = threading.Lock(), dict[str, Place]()

    def entered(self, path: str, named: str | None) -> tuple[OneMap | None, str]:
        """The map that a request is for, which is under way from now on, and what its path has before that of the map:
        its name, unless nginx has said that in a field. None: there is no such map. Raises `Refused` if it can't be
        opened."""
        name = named or path[1:].partition("?")[0].partition("/")[0]
        one = self.open(name) if NAME.fullmatch(name) else None
        return one, "" if named else f"/{name}"

    def open(self, name: str) -> OneMap | None:
        """A map of a name, with one request more; None if there is none."""
        here = self.file_of(name)
        with self.lock:
            place = self.places.get(name)
            if place is None:
                if here is None:
                    return None
                place = self.places[name] = Place()
        with place.lock:
            if here is None:
                return None
            if place.one is not None and place.here != here:
                if place.one.requests:
                    raise Refused(f"the map {name} gets other ports just now")
                self.close(place)
            if place.one is None:
                place.one, place.here = OneMap(self.made(here), self.systems, name), here
            place.one.enter(1)
            return place.one

    def leave(self, one: OneMap) -> None:
        """A request has its reply."""
        one.enter(-1)

    def file_of(self, name: str) -> MapHere | None:
        """What the file of a map says now; None if there is no file. Raises `Refused` if it can't be read."""
        try:
            with open(self.machine.path(MAPS, name), encoding="utf-8") as file:
                return map_of(name, file.read())
        except FileNotFoundError:
            return None
        except OSError as fault:
            raise Refused(f"the file of the map {name} can't be read: {fault.strerror}") from fault

    def made(self, here: MapHere) -> argparse.Namespace:
        """The words of a map, whose folders are there then."""
        found = words_of(self.words, here)
        try:
            for path in filter(None, (getattr(found, name) for name in FILES)):
                os.makedirs(os.path.dirname(os.path.abspath(path)), exist_ok=True)
        except OSError as fault:
            raise Refused(f"{fault}") from fault
        return found

    def close(self, place: Place) -> None:
        """Closes a map that is gone, or has other ports. Who is asking yet gets its reply of it."""
        if place.one is not None:
            print(f"{place.one.live.name}: closed", flush=True)
            place.one.close()
        place.one = place.here = None

    # ---- beside the requests

    def begin(self) -> None:
        """Undoes what was cut short of any map, and says how many maps there are."""
        names = [one.name for one in self.machine.maps()]
        print(f"{len(names):,} maps", flush=True)
        for name in names:
            try:
                one = self.open(name)
            except Fault as fault:
                print(f"{name}: {shown(fault)}", flush=True)
                continue
            if one is not None:
                try:
                    if one.log.begun:
                        one.begin()
                finally:
                    self.leave(one)

    def keep_looking(self) -> None:
        """Looks again and again which maps nobody asks for, and which are gone."""
        while True:
            time.sleep(min(LOOK, self.idle))
            self.look()

    def look(self) -> None:
        """Has maps rest that nobody asks for, and closes those that are gone."""
        with self.lock:
            places = list(self.places.items())
        for name, place in places:
            try:
                is_there = self.file_of(name) == place.here
            except Fault:
                continue
            with place.lock:
                if place.one is not None and place.one.rest(self.idle if is_there else 0) and not is_there:
                    self.close(place)
