"""The maps of this machine: their files and folders, and the units of systemd that serve them. Needs no package."""
from __future__ import annotations

import os
import re
import shutil
import subprocess
from typing import Any

from ..ending import replaced
from ..faults import Refused
from ..limits import SECTOR
from ..systems import module
from .map_file import NAME, MapHere, map_of
from .nginx_files import files_of

USER = "vtserve"
MAPS, NGINX, UNITS, DISKS, BACKUPS = (
    "etc/vtserve/maps",
    "etc/vtserve/nginx-maps",
    "etc/systemd/system",
    "var/lib/vtserve",
    "var/backups/vtserve",
)
# What is started with a map, and what else may run for it.
STARTED = ("vtserve@{}.service", "vtserve-publish@{}.timer", "vtserve-watch@{}.timer", "vtserve-backup@{}.timer")
GATEWAY, DRAWER = "vtserve-wfs@{}.service", "vtserve-wmts@{}.service"
# Looks at all maps at once (`vtmap watch --maps`): where it is enabled, no map has a timer of its own for that.
WATCH, WATCH_ALL = STARTED[2], "vtserve-watch-maps.timer"
# Answers for all maps (`vtmap wfs --maps`): where it is enabled, no map has a gateway of its own.
GATEWAY_ALL = "vtserve-wfs-maps.service"
# Follows the edits of all maps (`vtmap follow --maps`): where it is enabled, no map has a log or a standby's follower
# of its own.
FOLLOW_ALL = "vtserve-follow-maps.service"
# What is done once at first: `vtmap watch` looks for both.
FIRST = ("vtserve-publish@{}.service", "vtserve-backup@{}.service")
OTHERS = (GATEWAY, DRAWER, "vtserve-log@{}.service", "vtserve-standby@{}.service")
FRONT, FRONT_FILE, FRONT_FOLDER = "vtserve-nginx.service", "etc/vtserve/nginx.conf", "var/lib/vtserve-nginx"
# What nginx includes of the maps that a standby has, in which nobody else makes edits.
CLOSED = f"{NGINX}/closed.conf"


def unit_of(unit: str, name: str | None) -> str:
    """The unit of one of several maps, by that of the only map: vtserve-log@NAME.service for vtserve-log.service."""
    stem, _, kind = unit.rpartition(".")
    return unit if name is None else f"{stem}@{name}.{kind}"


class Machine:
    """The machine whose files are below a folder: `/`, or another one to try things in, where all is of one user."""

    def __init__(self, root: str = "/") -> None:
        self.root = root
        self.owner: Any = None
        users: Any = module("pwd")
        if users is None:
            raise Refused("the maps of a machine are for Linux with systemd")
        if root == "/":
            try:
                self.owner = users.getpwnam(USER)
            except KeyError:
                raise Refused(f"there is no user {USER} on this machine: docs/DEPLOYING.md, Install") from None

    def path(self, *parts: str) -> str:
        """A path of the machine."""
        return os.path.join(self.root, *parts)

    def disk(self, name: str) -> str:
        """The path of a map's disk file."""
        return self.path(DISKS, name, "map.disk")

    def maps(self) -> list[MapHere]:
        """The maps, by their names. What an editor leaves beside their files isn't one."""
        found = []
        names = os.listdir(self.path(MAPS)) if os.path.isdir(self.path(MAPS)) else []
        for name in sorted(filter(NAME.fullmatch, names)):
            with open(self.path(MAPS, name), encoding="utf-8") as file:
                found.append(map_of(name, file.read()))
        return found

    def named(self, name: str) -> MapHere:
        """The map of a name. Raises `Refused`."""
        found = [one for one in self.maps() if one.name == name]
        if not found:
            raise Refused(f"there is no map {name} on this machine")
        return found[0]

    def owned(self, path: str, mode: int, of_user: bool) -> None:
        """Sets the mode of a file or folder, and whose it is: the user's, or root's with the user's group."""
        os.chmod(path, mode)
        if self.owner:
            os.chown(path, self.owner.pw_uid if of_user else 0, self.owner.pw_gid)

    def make_folders(self, name: str) -> None:
        """Makes the folders of a map, which nobody but the user may enter."""
        for folder in (DISKS, BACKUPS):
            os.makedirs(self.path(folder, name), exist_ok=True)
            self.owned(self.path(folder, name), 0o750, True)
        os.makedirs(self.path(MAPS), exist_ok=True)

    def make_disk(self, name: str, sectors: int) -> bool:
        """Formats a map's disk file, with all of its room. Returns whether there was none before."""
        path = self.disk(name)
        if os.path.exists(path):
            return False
        user = {"user": self.owner.pw_uid, "group": self.owner.pw_gid, "extra_groups": []} if self.owner else {}
        self.run(["vtserve", "format", path, "--sectors", str(sectors)], **user)
        try:
            with open(path, "r+b") as file:
                os.posix_fallocate(file.fileno(), 0, SECTOR * sectors)
        except OSError as fault:
            os.unlink(path)
            raise Refused(f"there is no room for the disk of {name}: {fault.strerror}") from None
        self.owned(path, 0o640, True)
        return True

    def write(self, one: MapHere) -> None:
        """Writes the file of a map."""
        path = self.path(MAPS, one.name)
        with open(os.open(path, os.O_WRONLY | os.O_CREAT | os.O_EXCL, 0o640), "w", encoding="utf-8") as file:
            file.write(one.text)
        self.owned(path, 0o640, False)

    def write_bounds(self, one: MapHere) -> None:
        """Writes the box of a map into its file, whose other lines stay."""
        path = self.path(MAPS, one.name)
        with open(path, encoding="utf-8") as file:
            lines = [line for line in file if not line.startswith("BOUNDS=")]
        replaced(
            path, "".join(lines) + "".join(line + "\n" for line in one.text.splitlines() if line.startswith("BOUNDS="))
        )
        self.owned(path, 0o640, False)

    def limit(self, name: str, memory: str) -> None:
        """Sets the most memory that the server of a map may have."""
        folder = self.path(UNITS, STARTED[0].format(name) + ".d")
        os.makedirs(folder, exist_ok=True)
        replaced(os.path.join(folder, "memory.conf"), f"[Service]\nMemoryMax={memory}\n")
        self.systemctl("daemon-reload")

    def start(self, one: MapHere, further: list[str]) -> None:
        """Starts what serves a map, now and with the machine. `further`: other units than each map has."""
        left = [
            unit
            for unit, of_all in ((WATCH, WATCH_ALL), (GATEWAY, GATEWAY_ALL))
            if unit in (*STARTED, *further) and self.is_enabled(of_all)
        ]
        units = [unit.format(one.name) for unit in (*STARTED, *further) if unit not in left]
        self.systemctl("enable", "--now", *units)
        self.systemctl("start", "--no-block", *(unit.format(one.name) for unit in FIRST))

    def stop(self, name: str) -> None:
        """Stops what serves a map, timers before what they start."""
        self.systemctl("disable", "--now", *(unit.format(name) for unit in (*STARTED[1:], *OTHERS, STARTED[0])))

    def forget(self, name: str) -> None:
        """Removes the file of a map, and the limits of its server. Its disk and its backups stay."""
        os.unlink(self.path(MAPS, name))
        folder = self.path(UNITS, STARTED[0].format(name) + ".d")
        if os.path.isdir(folder):
            shutil.rmtree(folder)
            self.systemctl("daemon-reload")

    def check_nginx(self) -> None:
        """Raises `Refused` if nginx has a configuration from before there were several maps."""
        path = self.path(FRONT_FILE)
        if os.path.exists(path):
            with open(path, encoding="utf-8") as file:
                if os.path.basename(NGINX) not in file.read():
                    raise Refused(f"{path} knows no several maps: install nginx.conf anew (docs/DEPLOYING.md)")

    def tell_nginx(self, maps: list[MapHere]) -> bool:
        """Writes what nginx includes of these maps, and has it read that. Returns whether nginx runs."""
        os.makedirs(self.path(NGINX), exist_ok=True)
        for name, text in files_of(maps, self.is_enabled(GATEWAY_ALL)).items():
            replaced(self.path(NGINX, name), text)
        return self.reload_nginx()

    def reload_nginx(self) -> bool:
        """Has nginx read its configuration again. Returns whether it runs."""
        is_active = subprocess.run(["systemctl", "--quiet", "is-active", FRONT], check=False).returncode == 0
        if is_active:
            self.systemctl("reload", FRONT)
        return is_active

    def try_nginx(self) -> None:
        """Raises `Refused` if nginx doesn't accept its configuration."""
        path = self.path(FRONT_FILE)
        if not os.path.exists(path):
            raise Refused(f"there is no {path}: copy that of the first machine")
        self.run(["nginx", "-g", "user www-data;", "-q", "-t", "-p", self.path(FRONT_FOLDER), "-c", path])

    def closed(self) -> set[str]:
        """The names of the maps that this machine has as standbys: nginx passes no edits of them on."""
        path = self.path(CLOSED)
        if not os.path.exists(path):
            return set()
        with open(path, encoding="utf-8") as file:
            return {found[1] for found in (re.match(r'"?~\^([^ ]*) ', line) for line in file) if found}

    def open(self, name: str | None) -> None:
        """Lets nginx pass edits of a map on, which a standby had: of that name, or of the only one."""
        path = self.path(CLOSED)
        if os.path.exists(path):
            with open(path, encoding="utf-8") as file:
                lines = file.readlines()
            replaced(path, "".join(line for line in lines if not re.match(rf'"?~\^{name or ""} ', line)))

    def unit(self, name: str) -> str:
        """The text of a unit of systemd. Raises `Refused` if there is none of that name."""
        return self.run(["systemctl", "cat", name])

    def is_enabled(self, unit: str) -> bool:
        """Whether a unit is started with the machine."""
        return subprocess.run(["systemctl", "--quiet", "is-enabled", unit], check=False).returncode == 0

    def systemctl(self, *words: str) -> None:
        """Runs systemctl. Raises `Refused`."""
        self.run(["systemctl", *words])

    def run(self, line: list[str], **user: Any) -> str:
        """Runs a command, and returns what it printed. Raises `Refused` with that if it fails."""
        try:
            child = subprocess.run(
                line, check=False, text=True, stdout=subprocess.PIPE, stderr=subprocess.STDOUT, **user
            )
        except FileNotFoundError:
            raise Refused(f"{line[0]} isn't installed") from None
        if child.returncode:
            raise Refused(f"{' '.join(line)} ended with {child.returncode}: {child.stdout.strip()}")
        return child.stdout
