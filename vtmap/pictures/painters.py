"""The processes that draw, and the bounds of their work: the seconds and the memory of a drawing, and how many wait.
Needs no package.

The drawings of one client never take all of the processes, so those of others needn't wait for them.
"""
from __future__ import annotations

import os
import select
import subprocess
import threading
import time
from collections import Counter
from typing import Any

from ..faults import Refused
from ..interpreters import command_of
from .messages import NO_MEMORY, message, read

# The seconds of a drawing and of the wait for a process, the bytes of memory of one, and the drawings that wait: all,
# and those of one client.
LONGEST, WAIT, MEMORY, MOST_WAITING, MOST_OF_ONE = 20, 30, 1 << 29, 64, 48
CHUNK = 1 << 20


class Busy(Refused):
    """Why nothing is drawn just now."""


class TooLarge(Refused):
    """Why this isn't drawn, whenever it is asked for."""


class Painter:
    """A process that draws. It is started when it is needed."""

    def __init__(self) -> None:
        self.child: Any = None

    def start(self) -> None:
        """Starts it, unless it runs."""
        if self.child is None or self.child.poll() is not None:
            self.end()
            (python, *_), environment = command_of([])
            line = [python, "-m", "vtmap.pictures.painter", str(MEMORY)]
            self.child = subprocess.Popen(line, env=environment, stdin=subprocess.PIPE, stdout=subprocess.PIPE)

    def end(self) -> None:
        """Ends it at once."""
        if self.child is not None:
            self.child.kill()
            self.child.wait()
            for file in (self.child.stdin, self.child.stdout):
                try:
                    file.close()
                except OSError:
                    pass
            self.child = None

    def paint(self, words: dict[str, Any], content: bytes) -> list[bytes]:
        """The pictures of a drawing. Raises `TooLarge`, or `Refused` if it fails."""
        try:
            self.start()
            self.child.stdin.write(message(words, content))
            self.child.stdin.flush()
            end = time.monotonic() + LONGEST
            answer = read(lambda length: self.take(length, end))
        except TooLarge:
            self.end()
            raise
        except OSError as fault:
            self.end()
            raise Refused(f"the process that draws has ended: {fault}") from fault
        if answer is None:
            self.end()
            raise Refused("the process that draws has ended")
        said, data = answer
        if "fault" in said:
            if said["fault"] == NO_MEMORY:
                self.end()
                raise TooLarge(f"to draw it takes more than {MEMORY >> 20} MB of memory")
            raise Refused("what the map's server sends is no tile")
        return parts_of(data, said["lengths"])

    def take(self, length: int, end: float) -> bytes:
        """So many bytes of what it says, or fewer if it ends. Raises `TooLarge` if they don't come until a time."""
        number, parts = self.child.stdout.fileno(), bytearray()
        while len(parts) < length:
            if not select.select([number], [], [], max(end - time.monotonic(), 0))[0]:
                raise TooLarge(f"to draw it takes more than {LONGEST} seconds")
            part = os.read(number, min(length - len(parts), CHUNK))
            if not part:
                break
            parts += part
        return bytes(parts)


def parts_of(data: bytes, lengths: list[int]) -> list[bytes]:
    """Parts of these lengths."""
    found, at = [], 0
    for length in lengths:
        found.append(data[at : at + length])
        at += length
    return found


class Painters:
    """So many processes."""

    def __init__(self, count: int) -> None:
        self.free = [Painter() for _ in range(count)]
        self.all, self.changed = list(self.free), threading.Condition()
        self.waiting: Counter[str] = Counter()
        self.drawing: Counter[str] = Counter()
        # One process is left for the others.
        self.share = max(count - 1, 1)

    def paint(self, client: str, words: dict[str, Any], content: bytes) -> list[bytes]:
        """The pictures of a drawing for a client. Raises `Busy`, `TooLarge`, or `Refused`."""
        painter = self.take(client)
        try:
            return painter.paint(words, content)
        finally:
            with self.changed:
                self.drawing[client] -= 1
                self.free.append(painter)
                self.drawing += Counter()
                self.changed.notify_all()

    def take(self, client: str) -> Painter:
        """A process for a client, once one is free and the client's share isn't taken."""
        with self.changed:
            if sum(self.waiting.values()) >= MOST_WAITING or self.waiting[client] >= MOST_OF_ONE:
                raise Busy("too many pictures are being drawn just now: ask again")
            self.waiting[client] += 1
            is_free = self.changed.wait_for(lambda: self.free and self.drawing[client] < self.share, WAIT)
            self.waiting[client] -= 1
            self.waiting += Counter()
            if not is_free:
                raise Busy(f"nothing could be drawn for {WAIT} seconds: ask again")
            self.drawing[client] += 1
            return self.free.pop()

    def end(self) -> None:
        """Ends all of them."""
        for painter in self.all:
            painter.end()
