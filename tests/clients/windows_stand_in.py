"""Runs a command of vtmap as far as Linux can be made to look like Windows to it: the parts `windows` of run.py use it.

    python3 windows_stand_in.py COMMAND ..

Taken away are the modules, the functions and the signals that Windows hasn't got. Files are opened as there: texts
are cp1252 with `\\r\\n` unless the caller says otherwise, bytes are only read as they are with O_BINARY, and what a
process has open nobody renames, replaces or removes. Locks are those of `msvcrt`: of bytes that nobody else can
read. Standard output is a file in cp1252. What isn't like Windows: paths have slashes, the kernel is Linux's, and
GDAL is Debian's.
"""
# What looks at the system while it is loaded is loaded before the system looks different.
import argparse  # noqa: F401
import builtins
import concurrent.futures  # noqa: F401
import ctypes  # noqa: F401
import errno
import fcntl
import gzip  # noqa: F401
import http.client  # noqa: F401
import http.server  # noqa: F401
import io
import os
import select  # noqa: F401
import shutil  # noqa: F401
import signal
import socket
import sqlite3  # noqa: F401
import subprocess  # noqa: F401
import sys
import tempfile
import traceback  # noqa: F401
import types
import webbrowser  # noqa: F401
import xml.sax.saxutils  # noqa: F401

try:
    from osgeo import gdal, ogr, osr  # noqa: F401
except ImportError:
    pass
try:
    from PIL import Image, ImageDraw, ImageFont  # noqa: F401
except ImportError:
    pass

MODULES = ("fcntl", "grp", "posix", "pty", "pwd", "readline", "resource", "spwd", "syslog", "termios", "tty")
FUNCTIONS = """chown chroot confstr ctermid fchmod fchown fork forkpty getegid geteuid getgid getgroups getloadavg getpgid
    getpgrp getpriority getresgid getresuid getsid getuid getxattr initgroups killpg lchown listxattr lockf mkfifo
    mknod nice openpty pathconf pipe2 posix_fadvise posix_fallocate posix_spawn posix_spawnp pread preadv pwrite
    pwritev readv register_at_fork removexattr sched_getaffinity sched_setaffinity sendfile setegid seteuid setgid
    setgroups setpgid setpriority setregid setreuid setsid setuid setxattr statvfs fstatvfs sync fdatasync sysconf
    tcgetpgrp tcsetpgrp ttyname uname wait wait3 wait4 waitid writev O_CLOEXEC O_DIRECTORY O_DSYNC O_NOCTTY
    O_NOFOLLOW O_NONBLOCK O_SYNC""".split()
SIGNALS = ("SIGABRT", "SIGFPE", "SIGILL", "SIGINT", "SIGSEGV", "SIGTERM")
O_BINARY = 1 << 40
open_file, open_number, replace, rename, remove = io.open, os.open, os.replace, os.rename, os.remove


def has_open(path):
    """Whether a process of this machine has a file open."""
    try:
        sought = os.stat(path)
    except OSError:
        return False
    for process in filter(str.isdecimal, os.listdir("/proc")):
        try:
            for number in os.listdir(f"/proc/{process}/fd"):
                found = os.stat(f"/proc/{process}/fd/{number}")
                if (found.st_dev, found.st_ino) == (sought.st_dev, sought.st_ino):
                    return True
        except OSError:
            continue
    return False


def guarded(call):
    """A call that renames or removes files, and is refused for one that is open."""
    def called(*paths, **more):
        if not more:
            for path in paths:
                if has_open(path):
                    raise PermissionError(
                        errno.EACCES,
                        "The process cannot access the file because it is being used by another process",
                        path,
                    )
        return call(*paths, **more)

    return called


def open_as_there(file, mode="r", buffering=-1, encoding=None, errors=None, newline=None, closefd=True, opener=None):
    """`open` of Windows."""
    if "b" not in mode:
        encoding = encoding or "cp1252"
        newline = "\r\n" if newline is None and set(mode) & set("wax+") else newline
    return open_file(file, mode, buffering, encoding, errors, newline, closefd, opener)


def number_as_there(path, flags, mode=0o777, **more):
    """`os.open` of Windows: without O_BINARY bytes are changed while they are read."""
    if os.path.isfile(path) and not flags & O_BINARY:
        raise AssertionError(f"{path} is opened without O_BINARY")
    return open_number(path, flags & ~O_BINARY, mode, **more)


def locking(number, mode, length):
    """`msvcrt.locking`: of bytes from the place of the file on, which nobody else can read then."""
    place = os.lseek(number, 0, os.SEEK_CUR)
    if place < os.fstat(number).st_size:
        raise AssertionError("on Windows nobody else could read these bytes")
    if mode == 2:
        try:
            fcntl.lockf(number, fcntl.LOCK_EX | fcntl.LOCK_NB, length, place, os.SEEK_SET)
        except BlockingIOError as fault:
            raise PermissionError(errno.EACCES, "Permission denied") from fault


def become_windows():
    """Takes away what Windows hasn't got."""
    # Python looks for this folder once, and asks there for the user's.
    tempfile.gettempdir()
    sys.modules["msvcrt"] = calls = types.ModuleType("msvcrt")
    calls.LK_NBLCK, calls.locking = 2, locking
    for name in MODULES:
        sys.modules[name] = None
    for name in FUNCTIONS:
        if hasattr(os, name):
            delattr(os, name)
    for name in [name for name in dir(signal) if name.startswith("SIG") and name[3] != "_" and name not in SIGNALS]:
        delattr(signal, name)
    for name in ("alarm", "pause", "setitimer", "sigwait", "pthread_kill", "pthread_sigmask"):
        delattr(signal, name)
    del socket.AF_UNIX
    os.O_BINARY, os.open = O_BINARY, number_as_there
    builtins.open = io.open = open_as_there
    os.replace, os.rename = guarded(replace), guarded(rename)
    os.remove = os.unlink = guarded(remove)
    os.name, sys.platform = "nt", "win32"
    for stream in (sys.stdout, sys.stderr):
        stream.reconfigure(encoding="cp1252", errors="strict", newline="\r\n")


if __name__ == "__main__":
    sys.path.insert(
        0, os.environ.get("VTMAP_PLACE") or os.path.join(os.path.dirname(os.path.abspath(__file__)), "..", "..")
    )
    become_windows()
    from vtmap.command_line import main

    sys.exit(main(sys.argv[1:]))
