#!/usr/bin/env python3
"""What the gate tries beside the proofs: the program's commands, `vtmap`, the page, the kept configurations and the
documents.

    python3 tests/quick.py [--program PROGRAM] [--jobs N] [PART ..]

PROGRAM is crates/vtserve/out/vtserve, which `rt ci` leaves there.

The parts are the lines of `PARTS`; with PART only these run, and `--list` names them. It prints a line for each with
its counts and its seconds, the output of one that fails, and what is left out since a tool isn't installed. A part that
fails is run once more with nothing beside it, since cases of it wait for seconds, and counts as it ends then. The last
line is `N passed, M failed, K skipped`, and it ends with 1 if something failed. As root on Linux each part has its own
network and processes (`unshare`): its ports are free, and nothing of it is left running. Elsewhere the parts look for
free ports, and their process group is killed at their end.
"""
import argparse
import concurrent.futures
import fcntl
import os
import re
import shutil
import signal
import socket
import struct
import subprocess
import sys
import tempfile
import threading
import time
from collections import namedtuple

HERE = os.path.dirname(os.path.abspath(__file__))
TOP = os.path.dirname(HERE)
# Words of commands that stand for the program, a folder of the part's own, and an interpreter that has GDAL's module
# if one has it.
PROGRAM, SCRATCH, GDAL_PYTHON = "PROGRAM", "SCRATCH", "GDAL_PYTHON"
PYTHON, SYSTEM_PYTHON = sys.executable, "/usr/bin/python3"

# A name, the words of the command, and the tools without which it isn't run. After so many seconds a part is killed,
# and has failed: on a machine that does much else it takes ten times what it takes alone.
Part = namedtuple("Part", "name words needs", defaults=((),))
LONGEST = 2400


def client(name):
    """A part of tests/clients/run.py."""
    return Part(name, [PYTHON, "tests/clients/run.py", PROGRAM, name], ("curl",))


def page_of(name):
    """The commands of a document."""
    return Part(
        name, [PYTHON, "tests/documents.py", PROGRAM, "--page", name], ("namespaces", "ip", "curl", "nginx", "osgeo")
    )


# How scripts that aren't vtmap's are looked at: they run on the gate's Python alone.
UNKEPT = ["--cache-dir", os.devnull]
TYPED = ["--python-version", "3.11", "--disallow-untyped-defs", *UNKEPT]
SCRIPTS = ["tests/page_lists.py", "tests/crate_names.py", "tests/promises.py", "tests/columns.py"]

# The longest ones first, so that no processor waits at the end.
PARTS = [
    Part("models", [PYTHON, "model/scripts.py", "--check", "reply_script", "map_script", "read_script", "journal_script"]),
    Part("commands", [PYTHON, "tests/commands.py", PROGRAM]),
    client("toolbox"),
    client("wfs"),
    client("import"),
    client("trail"),
    client("past"),
    client("history"),
    client("serve-at"),
    client("run"),
    client("short-files"),
    client("batches"),
    page_of("docs/DEPLOYING.md"),
    page_of("docs/OFFICE.md"),
    client("ogc"),
    client("standards"),
    client("wmts"),
    client("files"),
    client("admin"),
    page_of("docs/HTTP.md"),
    page_of("docs/COMMANDS.md"),
    page_of("README.md"),
    Part("types-of-scripts", ["mypy", *TYPED, *SCRIPTS, "tools/floors.py"], ("mypy",)),
    Part("types", ["mypy", "--config-file", "tests/mypy.ini", *UNKEPT, "vtmap"], ("mypy",)),
    Part("types-of-clients", ["mypy", "--config-file", "tests/clients/mypy.ini", *UNKEPT, "-p", "clients"], ("mypy",)),
    client("confirmed"),
    client("routes"),
    client("tags"),
    client("foreign"),
    client("wfs-hostile"),
    client("wfs-maps"),
    client("wfs-far"),
    client("told"),
    client("wfs-tables"),
    client("schema"),
    client("outsiders"),
    client("standby"),
    client("try"),
    client("windows"),
    client("join"),
    client("maps"),
    client("requests"),
    client("features"),
    client("full"),
    client("restarts"),
    client("kept"),
    Part(
        "modules", [GDAL_PYTHON, "-m", "unittest", "discover", "-v", "-b", "-s", "tests/modules", "-t", "tests/modules"]
    ),
    Part("page", [PYTHON, "tests/page/run.py"], ("node",)),
    Part("refusals", [PYTHON, "-m", "vtmap.client.refusals", "check"]),
    Part("promises", [PYTHON, "tests/promises.py"]),
    Part("columns", [PYTHON, "tests/columns.py"]),
    Part("lists", [PYTHON, "tests/documents.py", "--lists"]),
    Part("mutants", [PYTHON, "bench/mutants/try.py", "--fits"]),
    Part("nginx.conf", ["nginx", "-t", "-q", "-p", SCRATCH, "-c", os.path.join(TOP, "docs", "nginx.conf")], ("nginx",)),
]

# Lines of outputs: of cases, of unittest, and of TAP, which node writes.
PASSED = re.compile(r"ok {6}|.* \.\.\. ok$|ok \d+(?!.*# SKIP)")
FAILED = re.compile(r"DIFFERS |.* \.\.\. (?:FAIL|ERROR)$|not ok \d+")
SKIPPED = re.compile(r" {8}(?:[\w-]+: )?((?:no|GDAL makes no) [^:]+: .*)|.* \.\.\. skipped '(.*)'$|ok \d+.*# SKIP (.*)")
RUN = re.compile(r"\S+: (\d+) commands run, (\d+) differ; \d+ not run")
NOTHING = re.compile(r"(?:Ran )?0 (?:cases|tests)\b|1\.\.0$", re.MULTILINE)
MOST_LINES = 300
# So many seconds a process that was killed is waited for.
GRACE = 5


# ---- tools


def has_namespaces():
    """Whether this process may have networks, processes and mounts of its own."""
    words = [*APART, PYTHON, os.path.abspath(__file__), "--inside", "true"]
    if shutil.which("unshare") is None:
        return False
    return subprocess.run(words, capture_output=True, check=False).returncode == 0


def has_gdal(path):
    """Whether an interpreter has GDAL's module."""
    return (
        os.path.exists(path)
        and subprocess.run([path, "-c", "import osgeo"], capture_output=True, check=False).returncode == 0
    )


APART = ["unshare", "--net", "--mount", "--pid", "--fork", "--kill-child", "--mount-proc"]
LOOKS = {"namespaces": has_namespaces, "osgeo": lambda: has_gdal(PYTHON) or has_gdal(SYSTEM_PYTHON)}


class Tools:
    """Which tools there are: each is looked for once."""

    def __init__(self):
        self.known, self.lock = {}, threading.Lock()

    def has(self, name):
        with self.lock:
            if name not in self.known:
                self.known[name] = LOOKS[name]() if name in LOOKS else shutil.which(name) is not None
            return self.known[name]


# ---- a part


class Counts(namedtuple("Counts", "passed failed skipped")):
    """How many cases passed and failed, and why others were left out."""

    def __add__(self, other):
        return Counts(*(one + another for one, another in zip(self, other)))


def counted(status, text):
    """What an output says. A command that has no cases is one."""
    passed = failed = 0
    skipped = []
    for line in text.splitlines():
        found = RUN.fullmatch(line)
        skip = SKIPPED.fullmatch(line)
        if found:
            passed, failed = passed + int(found[1]) - int(found[2]), failed + int(found[2])
        elif skip:
            skipped.append(next(filter(None, skip.groups()), "no reason"))
        elif PASSED.match(line):
            passed += 1
        elif FAILED.match(line):
            failed += 1
    if status != 0 and failed == 0:
        failed = 1
    elif not (passed or failed or skipped):
        # A part that has cases, and tries none of them, shows nothing.
        passed, failed = (0, 1) if NOTHING.search(text) else (1, 0)
    return Counts(passed, failed, skipped)


def shown(text):
    """The end of an output, without the cases that passed."""
    lines = [line for line in text.splitlines() if not PASSED.match(line)]
    return [f"    ({len(lines) - MOST_LINES} lines before these)"] * (len(lines) > MOST_LINES) + [
        f"    {line}" for line in lines[-MOST_LINES:]
    ]


class Runner:
    """Runs parts. `program`: the path of vtserve; `scratch`: a folder for what they write."""

    def __init__(self, program, scratch):
        self.program, self.scratch, self.tools = program, scratch, Tools()
        self.lock, self.children = threading.Lock(), set()

    def run(self, part, place="first"):
        """Runs a part, and prints how it went. Returns its counts. `place`: what the name of its folder begins with."""
        began = time.monotonic()
        missing = [name for name in part.needs if not self.tools.has(name)]
        if missing:
            status, text, counts = 0, "", Counts(0, 0, [f"no {', no '.join(missing)}: {part.name} isn't tried"])
        else:
            status, text = self.output_of(part, place)
            counts = counted(status, text)
        word = "FAILED" if counts.failed else "ok" if counts.passed else "skipped"
        lines = [f"{word:8}{part.name}: {told(counts)}, {time.monotonic() - began:.0f} s"]
        if counts.failed:
            lines += shown(text)
        with self.lock:
            print("\n".join([*lines, *(f"        {part.name}: {why}" for why in counts.skipped)]), flush=True)
        return counts

    def output_of(self, part, place):
        """The status of a part and what it prints. One that takes too long is killed."""
        folder = os.path.join(self.scratch, f"{place}-{part.name.replace('/', '-')}")
        os.mkdir(folder, 0o755)
        known = {
            PROGRAM: self.program,
            SCRATCH: folder,
            GDAL_PYTHON: SYSTEM_PYTHON if has_gdal(SYSTEM_PYTHON) else PYTHON,
        }
        words = [known.get(word, word) for word in part.words]
        if self.tools.has("namespaces"):
            words = [*APART, PYTHON, os.path.abspath(__file__), "--inside", *words]
        clean = {name: value for name, value in os.environ.items() if not name.startswith("VTSERVE_")}
        path = os.pathsep.join([clean.get("PATH", os.defpath), "/usr/sbin"])
        with open(os.path.join(folder, "output"), "w+b") as output:
            child = subprocess.Popen(
                words,
                cwd=TOP,
                env={**clean, "TMPDIR": folder, "PATH": path},
                stdin=subprocess.DEVNULL,
                stdout=output,
                stderr=subprocess.STDOUT,
                start_new_session=True,
            )
            self.children.add(child.pid)
            try:
                status = child.wait(LONGEST)
                more = ""
            except subprocess.TimeoutExpired:
                status, more = 1, f"\nit hasn't ended after {LONGEST} seconds\n"
            finally:
                killed(child)
                self.children.discard(child.pid)
            output.seek(0)
            return status, output.read().decode("utf-8", "replace") + more

    def end(self):
        """Kills what runs."""
        for number in list(self.children):
            try:
                os.killpg(number, signal.SIGKILL)
            except ProcessLookupError:
                pass


def killed(child):
    """Kills what is left of the process group of a part, and waits for its first process."""
    try:
        os.killpg(child.pid, signal.SIGKILL)
    except ProcessLookupError:
        pass
    child.wait(GRACE)


def told(counts):
    """Counts in words."""
    return f"{counts.passed} passed, {counts.failed} failed, {len(counts.skipped)} skipped"


def inside(words):
    """Runs a command in a network of its own, whose loopback device is down at first. Returns its status."""
    with socket.socket() as device:
        # SIOCSIFFLAGS with IFF_UP and IFF_RUNNING.
        fcntl.ioctl(device, 0x8914, struct.pack("16sH22x", b"lo", 0x41))
    return subprocess.run(words, check=False).returncode


def main():
    if sys.argv[1:2] == ["--inside"]:
        return inside(sys.argv[2:])
    parser = argparse.ArgumentParser(description="Tries what ships beside the proofs.")
    parser.add_argument(
        "--program",
        default=os.path.join(TOP, "crates", "vtserve", "out", "vtserve"),
        help="vtserve (crates/vtserve/out/vtserve)",
    )
    parser.add_argument(
        "--jobs", type=int, default=3, help="how many parts run at a time (3: most of them wait for something)"
    )
    parser.add_argument("--list", action="store_true", help="names the parts")
    parser.add_argument("part", nargs="*", help="parts to run (all)")
    words = parser.parse_args()
    names = [part.name for part in PARTS]
    if words.list or not set(words.part) <= set(names):
        print("\n".join(names))
        return 0 if words.list else 2
    if not os.access(words.program, os.X_OK):
        print(f"there is no program {words.program}\n0 passed, 1 failed, 0 skipped")
        return 1
    signal.signal(signal.SIGTERM, lambda *_: sys.exit(143))
    # A shell has its background commands ignore this one, and so would the commands that the tests interrupt.
    signal.signal(signal.SIGINT, signal.default_int_handler)
    total = Counts(0, 0, [])
    with tempfile.TemporaryDirectory() as scratch, concurrent.futures.ThreadPoolExecutor(words.jobs) as pool:
        os.chmod(scratch, 0o755)
        runner = Runner(os.path.abspath(words.program), os.path.realpath(scratch))
        try:
            parts = [part for part in PARTS if part.name in words.part or not words.part]
            found = list(pool.map(runner.run, parts))
            for at, part in enumerate(parts):
                if found[at].failed:
                    print(f"again   {part.name}, with nothing beside it", flush=True)
                    found[at] = runner.run(part, "again")
                total += found[at]
        finally:
            pool.shutdown(wait=False, cancel_futures=True)
            runner.end()
    print(told(total))
    return 1 if total.failed else 0


if __name__ == "__main__":
    sys.exit(main())
