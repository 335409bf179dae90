"""Published archives in an object store: that of a map, or that of several maps joined. Needs no package."""
from __future__ import annotations

import hashlib
import json
import os
import subprocess
import sys
import tempfile
import time

from ..archives.fetching import ARCHIVE, fetch, is_address, opened, tag_of
from ..archives.joining import join, told
from ..client.address import shown
from ..faults import Fault

CHUNK = 1 << 20


def put(place: str, path: str, name: str, kind: str, caching: str) -> bool:
    """Puts a file into the object store, under a name, with its type and how long it may be cached. Returns whether it
    is there."""
    target = f"{place.rstrip('/')}/{name}"
    if place.startswith("s3://"):
        line = ["aws", "s3", "cp", "--only-show-errors", "--content-type", kind, "--cache-control", caching]
    else:
        line = ["rclone", "copyto"]
        for field in (f"Content-Type: {kind}", f"Cache-Control: {caching}"):
            line += ["--header-upload", field]
    try:
        return subprocess.run([*line, path, target], check=False).returncode == 0
    except FileNotFoundError:
        print(f"{line[0]} isn't installed", file=sys.stderr)
        return False


def digest_of(path: str) -> str:
    """The SHA-256 of a file."""
    found = hashlib.sha256()
    with open(path, "rb") as file:
        while part := file.read(CHUNK):
            found.update(part)
    return found.hexdigest()


def store(path: str, place: str) -> bool:
    """Puts an archive into the object store, and then the file that names it. Nothing is deleted there: old archives
    have readers. Returns whether both are there."""
    name = f"map-{time.strftime('%Y%m%dT%H%M%SZ', time.gmtime())}-{digest_of(path)[:8]}.pmtiles"
    newest = os.path.join(os.path.dirname(path), "newest.json")
    with open(newest, "w", encoding="ascii") as file:
        json.dump({"archive": name}, file, separators=(",", ":"))
    is_there = put(place, path, name, "application/vnd.pmtiles", "public, max-age=31536000, immutable") and put(
        place, newest, "newest.json", "application/json", "no-cache"
    )
    if is_there:
        print(f"{name} is the newest archive in {place}")
    return is_there


def store_one(url: str, place: str) -> bool:
    """Puts the archive of a map into the object store. Returns whether it is there."""
    with tempfile.TemporaryDirectory() as folder:
        path = os.path.join(folder, "archive")
        try:
            with open(path, "wb") as file:
                fetch(url + ARCHIVE, file)
        except Fault as fault:
            print(fault, file=sys.stderr)
            return False
        return store(path, place)


def marks_of(names: list[str]) -> dict[str, str | None]:
    """What changes with each version of each archive, by its name without a password. None where nobody tells."""
    return {shown(name) if is_address(name) else name: tag_of(name) for name in names}


def store_joined(names: list[str], place: str, takes_first: bool) -> bool:
    """Joins archives, and puts the archive of all into the object store. Returns whether it is there."""
    with tempfile.TemporaryDirectory() as folder:
        path = os.path.join(folder, "archive")
        with opened(names, folder) as archives:
            found = join(archives, path, folder, takes_first)
        print(f"{len(names)} archives joined: {told(found)}")
        return store(path, place)
