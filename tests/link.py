"""Two network namespaces on this machine, and a link between them that delays each packet and loses some: two machines
that are apart. As root on Linux, with `ip` (iproute2) and /dev/net/tun; the kernel needs no netem.

    with Link(delay=0.02, loss=0.01) as link:
        subprocess.run([*link.here, ..])     # on the first machine, whose address is FIRST
        subprocess.run([*link.there, ..])    # on the second one
"""
from __future__ import annotations

import collections
import fcntl
import os
import random
import select
import shutil
import signal
import struct
import subprocess
import sys
import time

FIRST, SECOND = "10.213.7.1", "10.213.7.2"
# What the kernel calls a device that is a file: packets of IP with nothing before them.
TUNSETIFF, IFF_TUN, IFF_NO_PI = 0x400454CA, 0x0001, 0x1000
LONGEST_PACKET = 65536


def is_possible() -> bool:
    """Whether this process may make namespaces and a link."""
    return hasattr(os, "geteuid") and os.geteuid() == 0 and shutil.which("ip") is not None and os.path.exists("/dev/net/tun")


def ip(*words: str) -> None:
    """Runs `ip`."""
    subprocess.run(["ip", *words], check=True)


def device(name: str) -> int:
    """A new network device, as a file."""
    file = os.open("/dev/net/tun", os.O_RDWR | os.O_NONBLOCK)
    fcntl.ioctl(file, TUNSETIFF, struct.pack("16sH22x", name.encode(), IFF_TUN | IFF_NO_PI))
    return file


class Way:
    """One direction of a link: a packet that is read from a file is written to another one after the delay."""

    def __init__(self, source: int, target: int, delay: float, loss: float) -> None:
        self.source, self.target, self.delay, self.loss = source, target, delay, loss
        self.packets: collections.deque[tuple[float, bytes]] = collections.deque()
        self.chance = random.Random()

    def take(self) -> None:
        """Takes the packets that are there."""
        now = time.monotonic()
        while True:
            try:
                packet = os.read(self.source, LONGEST_PACKET)
            except BlockingIOError:
                return
            if self.chance.random() >= self.loss:
                self.packets.append((now + self.delay, packet))

    def pass_on(self) -> float:
        """Passes on what has waited. Returns when the next packet has."""
        while self.packets and self.packets[0][0] <= time.monotonic():
            try:
                os.write(self.target, self.packets.popleft()[1])
            except OSError:
                # Its machine is going, or has no room for it.
                pass
        return self.packets[0][0] if self.packets else time.monotonic() + 1


def carry(files: tuple[int, int], delay: float, loss: float) -> None:
    """Carries packets between two devices, for ever."""
    ways = [Way(*files, delay, loss), Way(*files[::-1], delay, loss)]
    by_file = {way.source: way for way in ways}
    while True:
        until = min(way.pass_on() for way in ways)
        for file in select.select(files, [], [], max(0.0, until - time.monotonic()))[0]:
            by_file[file].take()


class Link:
    """Two namespaces and the link between them. `here` and `there` are words that have a command run in one of them."""

    def __init__(self, delay: float = 0, loss: float = 0) -> None:
        self.names = [f"vtserve-{os.getpid()}-{side}" for side in "ab"]
        self.here, self.there = (["ip", "netns", "exec", name] for name in self.names)
        self.delay, self.loss, self.child = delay, loss, 0

    def __enter__(self) -> "Link":
        files = []
        for name, side, own, other in zip(self.names, "ab", (FIRST, SECOND), (SECOND, FIRST)):
            tun = f"vt{os.getpid()}{side}"
            files.append(device(tun))
            ip("netns", "add", name)
            ip("link", "set", tun, "netns", name)
            ip("-n", name, "addr", "add", own, "peer", other, "dev", tun)
            for each in (tun, "lo"):
                ip("-n", name, "link", "set", each, "up")
        self.child = os.fork()
        if not self.child:
            try:
                # Before all others: else a busy machine's turns would be the link's delay.
                os.sched_setscheduler(0, os.SCHED_FIFO, os.sched_param(1))
                signal.signal(signal.SIGINT, signal.SIG_IGN)
                carry((files[0], files[1]), self.delay, self.loss)
            finally:
                os._exit(1)
        for file in files:
            os.close(file)
        return self

    def __exit__(self, *fault: object) -> None:
        os.kill(self.child, signal.SIGKILL)
        os.waitpid(self.child, 0)
        for name in self.names:
            ip("netns", "del", name)


if __name__ == "__main__":
    with Link(float(sys.argv[1]), float(sys.argv[2])) as found:
        subprocess.run([*found.here, "ping", "-c", "20", "-i", "0.1", SECOND])
