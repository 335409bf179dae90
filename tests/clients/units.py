"""The part `units` of tests/clients/run.py: the units of systemd in docs/, judged by systemd-analyze, and the system
calls of `serve`.

The units aren't run: that needs a machine whose first process is systemd.
"""
import os
import re
import shutil
import signal
import socket
import subprocess
import time

from .gateways import Gateway, Gis, triangle
from .pictures import Drawer, has_cairo
from .stand import PROGRAM, TOP, VTMAP, Cases, Server, curl, feature, free_port, status_of

# The greatest exposure of each unit, by systemd-analyze.
EXPOSURE = {
    "vtserve.service": 1.5,
    "vtserve-nginx.service": 3.5,
    "vtserve-publish.service": 1.5,
    "vtserve-watch.service": 1.5,
    "vtserve-watch-maps.service": 1.5,
    "vtserve-backup.service": 1.0,
    "vtserve-log.service": 1.5,
    "vtserve-follow-maps.service": 1.5,
    "vtserve-standby.service": 1.5,
    "vtserve-wfs.service": 1.5,
    "vtserve-wfs-maps.service": 1.5,
    "vtserve-wmts.service": 1.5,
    "vtserve-at.service": 1.5,
    "vtserve-replicas.service": 1.5,
    "vtserve-replica@.service": 1.5,
}
# What the units with timers run, and those that follow the edits.
TASKS = {
    "vtserve-log.service": ["follow", "--url", "URL", "--log", "edits.jsonl", "--once"],
    "vtserve-standby.service": ["follow", "--url", "URL", "--to", "URL", "--publish", "--once"],
    "vtserve-publish.service": ["publish", "--url", "URL", "--record", "record"],
    "vtserve-backup.service": ["save", "map-2026-11-29.jsonl", "--disk", "DISK"],
    "vtserve-watch.service": [
        "watch",
        "--url",
        "URL",
        "--backups",
        ".",
        "--backup-hours",
        "26",
        "--state",
        "state",
        "--record",
        "record",
        "--metrics",
        "metrics",
    ],
}
# SQLite sets the owner of its files if root runs it.
OF_ROOT = {"fchown"}


def unit(name):
    """The path of a unit."""
    return os.path.join(TOP, "docs", name)


def judged(cases: Cases) -> None:
    """What systemd-analyze says of the units."""
    for name, most in EXPOSURE.items():
        timer = [path for path in [unit(name.replace(".service", ".timer"))] if os.path.exists(path)]
        child = subprocess.run(["systemd-analyze", "verify", unit(name), *timer], capture_output=True, text=True)
        # The commands of the units may not be installed here.
        faults = [line for line in child.stderr.splitlines() if "is not executable: No such file" not in line]
        cases.show(f"units: systemd-analyze verify {name}", faults, [])
        child = subprocess.run(
            ["systemd-analyze", "--no-pager", "security", "--offline=true", unit(name)], capture_output=True, text=True
        )
        found = re.search(r"Overall exposure level for \S+: ([\d.]+)", child.stdout)
        cases.show(
            f"units: systemd-analyze security {name}: at most {most}",
            found is not None and float(found[1]) <= most,
            True,
        )


def filtered(name):
    """The system calls that a unit allows: those of the sets that it names, less those of the sets after `~`."""
    listed = subprocess.run(
        ["systemd-analyze", "--no-pager", "syscall-filter"], capture_output=True, text=True, check=True
    ).stdout
    sets, current = {}, None
    for line in listed.splitlines():
        word = line.strip().split(" ")[0]
        if line.startswith("@"):
            current = sets.setdefault(word, [])
        elif current is not None and word and not word.startswith("#"):
            current.append(word)

    def members(word):
        return {call for part in sets.get(word, []) for call in members(part)} if word.startswith("@") else {word}

    allowed = set()
    with open(unit(name), encoding="utf-8") as file:
        for line in file:
            if line.startswith("SystemCallFilter="):
                words = line.strip().removeprefix("SystemCallFilter=")
                found = {call for word in words.removeprefix("~").split() for call in members(word)}
                allowed = allowed - found if words.startswith("~") else allowed | found
    return allowed


def session(folder):
    """The system calls of a process of `serve` that serves each kind of request, and the lines of its trace."""
    trace, disk, port = os.path.join(folder, "trace"), os.path.join(folder, "traced.disk"), free_port()
    subprocess.run([PROGRAM, "format", disk, "--sectors", "4096"], check=True, capture_output=True)
    words = ["strace", "-f", "-o", trace, PROGRAM, "serve", disk, "--port", str(port), "--connections", "7"]
    url = f"http://127.0.0.1:{port}"
    with subprocess.Popen(words, stdout=subprocess.PIPE, stderr=subprocess.DEVNULL) as child:
        child.stdout.readline()
        replies = [curl(url + "/features/7", "-X", "PUT", body=feature()), curl(url + "/publish", "-X", "POST")]
        replies += [curl(url + path) for path in ("/map/0/0/0.mvt", "/map/metadata", "/map.pmtiles", "/features/7")]
        replies.append(curl(url + "/features/7", "-X", "DELETE"))
        child.wait(60)
    with open(trace, encoding="utf-8", errors="replace") as file:
        lines = file.read().splitlines()
    calls = {found[1] for line in lines if (found := re.match(r"\d+ +(\w+)\(", line))}
    return [status_of(reply) for reply in replies], calls, lines


def tasks(cases: Cases, folder: str) -> None:
    """Runs what these units run, and shows the system calls that they don't allow."""
    with Server(folder, "timed", 4096) as server:
        for name, words in TASKS.items():
            trace = os.path.join(folder, name)
            words = [{"URL": server.url, "DISK": server.disk}.get(word, word) for word in words]
            ran = subprocess.run(["strace", "-f", "-o", trace, *VTMAP, *words], cwd=folder, capture_output=True)
            with open(trace, encoding="utf-8", errors="replace") as file:
                calls = {found[1] for line in file if (found := re.match(r"\d+ +(\w+)\(", line))}
            cases.show(
                f"units: what {name} runs, and system calls that it doesn't allow",
                (ran.returncode, sorted(calls - filtered(name) - OF_ROOT)),
                (0, []),
            )


def gateway(cases: Cases, folder: str) -> None:
    """The system calls of `vtmap wfs`, which is read and saves a shape that GDAL cuts, and its memory."""
    trace = os.path.join(folder, "gateway.trace")
    words = ["--state", os.path.join(folder, "gateway.state"), "--layer", "park:areas:name=text"]
    with Server(folder, "gateway", 4096) as server, Gateway(
        folder, server.url, *words, under=["strace", "-f", "-o", trace]
    ) as desk:
        gis = Gis(desk, "park.areas")
        gis.rows()
        told = gis.save(gis.insert(triangle(834000, 7264000, 5000), name="Park"))
        with open(f"/proc/{desk.child.pid}/task/{desk.child.pid}/children", encoding="ascii") as file:
            os.kill(int(file.read().split()[0]), signal.SIGTERM)
        ended = desk.child.wait(60)
    with open(trace, encoding="utf-8", errors="replace") as file:
        lines = file.read().splitlines()
    calls = {found[1] for line in lines if (found := re.match(r"\d+ +(\w+)\(", line))}
    cases.show("units: vtmap wfs saves, and ends at SIGTERM", (told.split(".")[0], ended), ("SUCCESS park", 0))
    # A library that GDAL's module loads asks where its memory is to lie, and goes on without.
    calls.discard("set_mempolicy")
    cases.show(
        "units: system calls of it that its unit doesn't allow", sorted(calls - filtered("vtserve-wfs.service")), []
    )
    cases.show(
        "units: memory of it that is writable and executable",
        [line for line in lines if "PROT_WRITE|PROT_EXEC" in line],
        [],
    )


def pictures(cases: Cases, folder: str) -> None:
    """The system calls of `vtmap wmts` and of the processes that draw, and their memory."""
    trace = os.path.join(folder, "drawer.trace")
    with Server(folder, "drawn", 4096) as server, Drawer(
        folder, server.url, under=["strace", "-f", "-o", trace]
    ) as drawer:
        curl(f"{server.url}/features/1", "-X", "PUT", body=feature(tags={"name": "p"}))
        status = status_of(curl(drawer.url + "/xyz/1/1/1.png"))
        with open(f"/proc/{drawer.child.pid}/task/{drawer.child.pid}/children", encoding="ascii") as file:
            os.kill(int(file.read().split()[0]), signal.SIGTERM)
        ended = drawer.child.wait(60)
    with open(trace, encoding="utf-8", errors="replace") as file:
        lines = file.read().splitlines()
    calls = {found[1] for line in lines if (found := re.match(r"\d+ +(\w+)\(", line))}
    cases.show("units: vtmap wmts draws, and ends at SIGTERM", (status, ended), (200, 0))
    cases.show(
        "units: system calls of it that its unit doesn't allow", sorted(calls - filtered("vtserve-wmts.service")), []
    )
    cases.show(
        "units: memory of it that is writable and executable",
        [line for line in lines if "PROT_WRITE|PROT_EXEC" in line],
        [],
    )


def told_alive(cases: Cases, folder: str) -> None:
    """What systemd is told by `vtmap wfs`, whose unit has a watchdog: that it answers, and nothing while it doesn't."""
    path, names = os.path.join(folder, "notify"), ("NOTIFY_SOCKET", "WATCHDOG_USEC")

    def told(seconds):
        """What comes within some seconds, after what came before."""
        systemd.setblocking(False)
        try:
            while True:
                systemd.recv(100)
        except BlockingIOError:
            systemd.settimeout(seconds)
        try:
            return systemd.recv(100)
        except TimeoutError:
            return None

    with socket.socket(socket.AF_UNIX, socket.SOCK_DGRAM) as systemd, Server(folder, "alive") as server:
        systemd.bind(path)
        os.environ.update(zip(names, (path, "1500000")))
        try:
            with Gateway(folder, server.url) as gateway:
                seen = [told(10)]
                server.child.send_signal(signal.SIGSTOP)
                # The gateway waits for the server: what it was asked before may still be answered.
                time.sleep(2)
                seen.append(told(4))
                server.child.send_signal(signal.SIGCONT)
                seen.append(told(10))
                gateway.end()
        finally:
            for name in names:
                del os.environ[name]
    cases.show("units: vtmap wfs tells systemd that it answers", seen, [b"WATCHDOG=1", None, b"WATCHDOG=1"])
    found = {line.partition("=")[0]: line.partition("=")[2] for line in lines_of("vtserve-wfs.service")}
    wanted = ("10min", "SIGTERM", "on-failure", True)
    cases.show(
        "units: its unit starts it again otherwise, once a save is made",
        (
            found.get("WatchdogSec"),
            found.get("WatchdogSignal"),
            found["Restart"],
            "AF_UNIX" in found["RestrictAddressFamilies"],
        ),
        wanted,
    )


def lines_of(name):
    """The lines of a unit; one that goes on after a backslash is one."""
    with open(unit(name), encoding="utf-8") as file:
        return file.read().replace("\\\n", " ").splitlines()


def causes(cases: Cases, folder: str) -> None:
    """What the journal has of a server that can't start, by the command of its unit."""
    command, = (line for line in lines_of("vtserve.service") if line.startswith("ExecStart="))
    missing = os.path.join(folder, "missing.disk")
    words = [
        {"/var/lib/vtserve/map.disk": missing, "8080": str(free_port())}.get(word, word) for word in command.split()[1:]
    ]
    told = subprocess.run([PROGRAM, *words], capture_output=True, text=True, timeout=60).stderr
    cases.show(
        "units: a server without its disk says what the system said",
        told,
        f"vtserve: File: {missing}: No such file or directory (os error 2)\n",
    )
    for name in TASKS:
        named = [line for line in lines_of(name) if re.match("# OnFailure=.*@%n", line)]
        cases.show(f"units: {name} has a line for who is told when it fails", len(named), 1)
    for name in ("publish", "watch", "backup"):
        lines = [line.partition("=") for unit_of in ("", "@") for line in lines_of(f"vtserve-{name}{unit_of}.timer")]
        delays = [value for key, _, value in lines if key == "RandomizedDelaySec"]
        cases.show(
            f"units: not all machines and maps at once, vtserve-{name}.timer", (len(delays), all(delays)), (2, True)
        )
        # A timer of OnBootSec= that is enabled later fires at once: the watch would miss the first publication and
        # backup.
        cases.show(
            f"units: nor before what comes first, vtserve-{name}.timer",
            [key for key, _, _ in lines if key == "OnBootSec"],
            [],
        )


def backups(cases: Cases, folder: str) -> None:
    """What vtmap watch says of the folder of the backups."""
    kept = os.path.join(folder, "backups")
    os.mkdir(kept)
    with Server(folder, "backed_up") as server:

        def watched(*more):
            words = [*VTMAP, "watch", "--url", server.url, "--backups", kept, *more]
            told = subprocess.run(words, capture_output=True, text=True)
            return told.returncode, [line.partition(":")[0] for line in told.stdout.splitlines()]

        def made(name, hours):
            path = os.path.join(kept, name)
            with open(path, "w", encoding="utf-8"):
                os.utime(path, times=(time.time() - 3600 * hours,) * 2)

        for name, hours in [("map-2026-11-28.jsonl.part", 1), ("other.jsonl", 1)]:
            made(name, hours)
        cases.show("units: vtmap watch, a folder without a backup", watched(), (1, [f"{kept} has no backup"]))
        made("map-2026-11-25.jsonl", 99)
        made("map-2026-11-27.jsonl", 27)
        old = f"the newest backup in {kept} is 27.0 hours old, and it may be "
        cases.show("units: vtmap watch, an old backup", watched(), (1, [old + "26"]))
        cases.show(
            "units: vtmap watch, by --backup-hours",
            (watched("--backup-hours", "2.5"), watched("--backup-hours", "28")[0]),
            ((1, [old + "2.5"]), 0),
        )
        made("map-2026-11-28.jsonl", 25)
        cases.show("units: vtmap watch, a new backup", watched()[0], 0)
    kept += ".gone"
    cases.show("units: vtmap watch, no folder of backups and no server", watched()[0], 2)


def units(cases: Cases, folder: str) -> None:
    """The units, and whether the filter of system calls has all that the process needs."""
    causes(cases, folder)
    backups(cases, folder)
    told_alive(cases, folder)
    if not shutil.which("systemd-analyze"):
        cases.say("no systemd-analyze: no unit is judged")
        return
    judged(cases)
    if not shutil.which("strace"):
        cases.say("no strace: the filter of system calls isn't tried")
        return
    tasks(cases, folder)
    gateway(cases, folder)
    if has_cairo(cases):
        pictures(cases, folder)
    statuses, calls, lines = session(folder)
    cases.show("units: a session under strace", statuses, [200] * 7)
    cases.show(
        "units: system calls of serve that its unit doesn't allow", sorted(calls - filtered("vtserve.service")), []
    )
    mixed = [line for line in lines if "PROT_WRITE|PROT_EXEC" in line]
    sockets = [line for line in lines if " socket(" in line and "AF_INET," not in line]
    cases.show(
        "units: memory that is writable and executable, and sockets of other families", (mixed, sockets), ([], [])
    )
