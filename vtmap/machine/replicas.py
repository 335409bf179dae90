"""The replicas of the map of this machine: processes that have each of its edits, and make tiles for readers. Needs no
package.

A replica is a port. Its unit, vtserve-replica@PORT, begins as a copy of the disk each time that it is started;
vtserve-replicas follows the server into all of them, by the file /etc/vtserve/replicas; nginx has them in two files
that it includes. """
from __future__ import annotations

import os
import re
import shutil

from ..ending import replaced
from ..faults import Refused
from .machine import NGINX, UNITS, Machine

FILE = "etc/vtserve/replicas"
SERVES, FOLLOWS = "vtserve-replica@{}.service", "vtserve-replicas.service"
# The first port that a replica gets, and the last one.
FIRST_PORT, LAST_PORT = 8091, 8099
ABOUT = "# Written by `vtmap replica`.\n"
# How much more often a tile is asked of a replica than of the server, which makes all tiles where no replica answers.
WEIGHT = 16


def upstream_of(ports: list[int], server: int) -> str:
    """Who makes the tiles of readers: the same one for a tile each time, so that its tag stays."""
    lines = "".join(f"    server 127.0.0.1:{port} weight={WEIGHT};\n" for port in ports)
    return (
        f"{ABOUT}upstream replicas {{\n    hash $uri consistent;\n{lines}    server 127.0.0.1:{server};\n"
        "    keepalive 16;\n    keepalive_timeout 30s;\n}\n"
    )


class Replicas:
    """The replicas of a machine, whose server has a port."""

    def __init__(self, machine: Machine, server: int) -> None:
        self.machine, self.server = machine, server

    def ports(self) -> list[int]:
        """The ports of the replicas, ascending."""
        path = self.machine.path(FILE)
        if not os.path.exists(path):
            return []
        with open(path, encoding="utf-8") as file:
            return sorted(int(port) for port in re.findall(r"--to http://127\.0\.0\.1:([0-9]+)", file.read()))

    def free_port(self) -> int:
        """A port for another one. Raises `Refused`."""
        used = {*self.ports(), *(port for one in self.machine.maps() for port in (one.port, one.gateway)), self.server}
        for port in range(FIRST_PORT, LAST_PORT + 1):
            if port not in used:
                return port
        raise Refused(f"there are replicas on all ports from {FIRST_PORT} to {LAST_PORT}: name another one by --port")

    def start(self, port: int, folder: str | None) -> None:
        """Starts a replica, whose disk is in a folder, or else in memory."""
        if folder:
            place = self.machine.path(UNITS, SERVES.format(port) + ".d")
            os.makedirs(place, exist_ok=True)
            replaced(
                os.path.join(place, "disk.conf"),
                f"[Service]\nEnvironment=DISK={folder}/replica-{port}.disk\nReadWritePaths={folder}\n",
            )
            self.machine.systemctl("daemon-reload")
        self.machine.systemctl("enable", "--now", SERVES.format(port))

    def stop(self, port: int) -> None:
        """Stops it, and forgets where its disk was."""
        self.machine.systemctl("disable", "--now", SERVES.format(port))
        place = self.machine.path(UNITS, SERVES.format(port) + ".d")
        if os.path.isdir(place):
            shutil.rmtree(place)
            self.machine.systemctl("daemon-reload")

    def follow(self, ports: list[int]) -> None:
        """Has the server followed into these, and into no other."""
        path = self.machine.path(FILE)
        if not ports:
            self.machine.systemctl("disable", "--now", FOLLOWS)
            if os.path.exists(path):
                os.unlink(path)
            return
        replaced(path, f"{ABOUT}TO={' '.join(f'--to http://127.0.0.1:{port}' for port in sorted(ports))}\n")
        self.machine.owned(path, 0o640, False)
        self.machine.systemctl("enable", FOLLOWS)
        self.machine.systemctl("restart", FOLLOWS)

    def tell_nginx(self, ports: list[int]) -> bool:
        """Has nginx ask these for the tiles of readers. Returns whether nginx runs."""
        os.makedirs(self.machine.path(NGINX), exist_ok=True)
        files = (
            {"replicas.conf": upstream_of(ports, self.server), "readers.conf": f'{ABOUT}"" replicas;\n'}
            if ports
            else {}
        )
        for name in ("replicas.conf", "readers.conf"):
            path = self.machine.path(NGINX, name)
            if name in files:
                replaced(path, files[name])
            elif os.path.exists(path):
                os.unlink(path)
        return self.machine.reload_nginx()
