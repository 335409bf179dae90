"""What Linux, macOS and Windows do differently: locks of files, signals, consoles, and files that take the place of others. Needs no package."""
from __future__ import annotations

import importlib
import os
import signal
import subprocess
import sys
import time
from collections.abc import Iterable, Mapping
from types import ModuleType
from typing import IO, Any, NoReturn

# The byte of a file that a lock of Windows is on: far beyond the end of each file here, since nobody else can read a locked byte.
LOCKED = 1 << 30
# How often a file is put into its place on Windows, and the seconds between two tries.
TRIES, PAUSE = 20, 0.1


def is_windows() -> bool:
    """Whether this is Windows."""
    return os.name == "nt"


def module(name: str) -> ModuleType | None:
    """A module that only some systems have."""
    try:
        return importlib.import_module(name)
    except ImportError:
        return None


# ---- locks


def lock(file: IO[Any]) -> bool:
    """Locks an open file until it is closed. Returns False, at once, if another process has it locked."""
    flags: Any = module("fcntl")
    try:
        if flags:
            flags.flock(file, flags.LOCK_EX | flags.LOCK_NB)
        else:
            lock_a_byte(file.fileno())
    except (BlockingIOError, PermissionError):
        return False
    return True


def lock_a_byte(number: int) -> None:
    """Locks an open file of Windows, by its descriptor."""
    calls: Any = module("msvcrt")
    place = os.lseek(number, 0, os.SEEK_CUR)
    try:
        os.lseek(number, LOCKED, os.SEEK_SET)
        calls.locking(number, calls.LK_NBLCK, 1)
    finally:
        os.lseek(number, place, os.SEEK_SET)


# ---- files


def open_to_read(path: str) -> int:
    """The descriptor of a file, whose bytes are read as they are."""
    return os.open(path, os.O_RDONLY | getattr(os, "O_BINARY", 0))


def read_at(number: int, length: int, place: int) -> bytes:
    """Bytes of a file at a place, of which fewer are left at its end."""
    if hasattr(os, "pread"):
        return os.pread(number, length, place)
    os.lseek(number, place, os.SEEK_SET)
    return os.read(number, length)


def put_in_place(part: str, path: str) -> None:
    """Puts a written file into the place of another one, at once. Nobody can do so on Windows while a program has the other one open, as one that
    looks for viruses has for a moment."""
    for _ in range(TRIES - 1 if is_windows() else 0):
        try:
            os.replace(part, path)
            return
        except PermissionError:
            time.sleep(PAUSE)
    try:
        os.replace(part, path)
    except PermissionError as fault:
        if not is_windows():
            raise
        raise OSError(fault.errno, "another program has it open: close it there, and run the same command again", path) from fault


def close_to_move(file: IO[Any]) -> None:
    """Closes a file that is to be renamed or removed, on Windows, where an open one can't be. Elsewhere its lock is kept until then."""
    if is_windows():
        file.close()


def without_end(path: str) -> str:
    """A path without separators at its end, as a shell completes that of a folder."""
    return path.rstrip("/\\" if is_windows() else "/")


# ---- processes and consoles


def signals_to_end() -> list[signal.Signals]:
    """The signals by which somebody ends a command: Ctrl+C, a service manager, a terminal that is closed, Ctrl+Break."""
    return [signal.Signals[name] for name in ("SIGINT", "SIGTERM", "SIGHUP", "SIGBREAK") if hasattr(signal, name)]


def become(line: list[str], environment: Mapping[str, str]) -> NoReturn:
    """Goes on as another program. On Windows a process can't, and whoever waits for it would go on at once: the other one is awaited."""
    sys.stdout.flush()
    if is_windows():
        sys.exit(subprocess.run(line, env=environment, check=False).returncode)
    os.execve(line[0], line, environment)


def prepare_consoles(streams: Iterable[Any]) -> None:
    """Has streams take each text: what their encoding hasn't (cp1252 of a Windows console that is redirected) is written as Python writes it."""
    for stream in streams:
        if getattr(stream, "errors", None) == "strict":
            stream.reconfigure(errors="backslashreplace")


def is_unicode(stream: Any) -> bool:
    """Whether a stream takes each letter as it is."""
    return (getattr(stream, "encoding", None) or "").lower().replace("-", "").startswith("utf")
