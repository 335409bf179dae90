#!/usr/bin/env python3
"""`systemctl` for the parts `maps`, `replicas` and `takeover` of run.py: it records its words, and runs what a unit of
docs/ runs, without systemd.

STAND_IN is the folder of what it keeps: `calls`, and the process id of each service. ROOT is the folder of /etc, /run
and /var, PROGRAM is vtserve, NGINX the words of the nginx that is in front, FRONT its address, SERVER the one of the
server on port 8080.
"""
import json
import os
import re
import shlex
import signal
import subprocess
import sys
import time

TOP = os.path.join(os.path.dirname(os.path.abspath(__file__)), "..", "..")
KEPT, ROOT, PROGRAM = os.environ["STAND_IN"], os.environ["ROOT"], os.environ["PROGRAM"]
# The services that are run; of all other units it is recorded that they were started.
RUN = re.compile(r"vtserve(-wfs|-replica)?@.+\.service|vtserve-replicas\.service")


class Service:
    """A service of docs/, which may be a template for one of a name."""

    def __init__(self, unit):
        stem, _, self.name = unit.removesuffix(".service").partition("@")
        self.lines = self.lines_of(os.path.join(TOP, "docs", stem + ("@" if self.name else "") + ".service"))
        own = os.path.join(ROOT, "etc/systemd/system", unit + ".d")
        for file in sorted(os.listdir(own)) if os.path.isdir(own) else []:
            self.lines += self.lines_of(os.path.join(own, file))
        self.variables = dict(pair.split("=", 1) for text in self.said("Environment") for pair in shlex.split(text))
        for path in self.said("EnvironmentFile"):
            with open(ROOT + path, encoding="utf-8") as file:
                self.variables |= dict(line.strip().split("=", 1) for line in file if not line.startswith("#"))
        for kind, place in (("StateDirectory", "var/lib"), ("RuntimeDirectory", "run")):
            for folder in self.said(kind):
                os.makedirs(os.path.join(ROOT, place, folder), exist_ok=True)

    def lines_of(self, path):
        """The lines of a file of a unit, with the name of this one."""
        with open(path, encoding="utf-8") as file:
            text = file.read().replace("\\\n", " ")
        return re.findall(r"(?m)^(\w+)=(.*)$", text.replace("%i", self.name))

    def said(self, key):
        """The values of a key."""
        return [value for each, value in self.lines if each == key]

    def command(self, text):
        """The words of a command of it, with the paths of ROOT."""
        text = re.sub(r"\$(?:\{(\w+)\}|(\w+))", lambda found: self.variables[found[1] or found[2]], text)
        text = text.replace("http://127.0.0.1:8000", os.environ.get("FRONT", ""))
        text = text.replace("http://127.0.0.1:8080", os.environ.get("SERVER", ""))
        words = [re.sub("^/(etc|run|var)/", rf"{ROOT}/\1/", word) for word in shlex.split(text)]
        programs = {"vtserve": [PROGRAM], "vtmap": [sys.executable, os.path.join(TOP, "bin", "vtmap")]}
        return [*programs.get(os.path.basename(words[0]), words[:1]), *words[1:]]

    def run(self):
        """Runs it to its end. Returns its status."""
        return subprocess.run(self.command(self.said("ExecStart")[0])).returncode

    def start(self):
        """Starts it. Returns its process id."""
        silent = {name: subprocess.DEVNULL for name in ("stdin", "stdout", "stderr")}
        for text in self.said("ExecStartPre"):
            subprocess.run(self.command(text), check=True, **silent)
        return subprocess.Popen(self.command(self.said("ExecStart")[0]), start_new_session=True, **silent).pid


def is_running(number):
    """Whether a process runs, and isn't a zombie."""
    try:
        with open(f"/proc/{number}/stat", encoding="ascii") as file:
            return file.read().rpartition(")")[2].split()[0] != "Z"
    except FileNotFoundError:
        return False


def start(unit):
    """Starts a service that is run; other units are only recorded."""
    if RUN.fullmatch(unit):
        with open(os.path.join(KEPT, unit), "w", encoding="ascii") as file:
            file.write(str(Service(unit).start()))


def stop(unit):
    """Ends it, and waits for that."""
    path = os.path.join(KEPT, unit)
    if os.path.exists(path):
        with open(path, encoding="ascii") as file:
            number = int(file.read())
        os.unlink(path)
        if is_running(number):
            os.kill(number, signal.SIGTERM)
        while is_running(number):
            time.sleep(0.05)


def show(unit):
    """Prints the text of a unit. Returns 1 if there is none."""
    path = os.path.join(TOP, "docs", re.sub("@.+(?=[.])", "@", unit))
    if not os.path.exists(path):
        print(f"No files found for {unit}.")
        return 1
    with open(path, encoding="utf-8") as file:
        print(file.read(), end="")
    return 0


def enabled():
    """The units of all maps that are enabled, as the file of that name says."""
    path = os.path.join(KEPT, "enabled")
    if not os.path.exists(path):
        return []
    with open(path, encoding="ascii") as file:
        return file.read().split()


def main(words):
    with open(os.path.join(KEPT, "calls"), "a", encoding="utf-8") as file:
        file.write(" ".join(words) + "\n")
    if os.path.exists(os.path.join(KEPT, "fails")):
        print("Failed to enable unit")
        return 1
    if "is-active" in words:
        return 0 if os.environ.get("NGINX") else 3
    if "is-enabled" in words:
        return 0 if words[-1] in enabled() else 1
    if words[0] == "reload":
        return subprocess.run([*json.loads(os.environ["NGINX"]), "-s", "reload"], stderr=subprocess.DEVNULL).returncode
    if words[0] == "cat":
        return show(words[1])
    if words[0] == "start" and words[1].startswith("vtserve-watch"):
        return Service(words[1]).run()
    for unit in words[2:] if words[1:2] == ["--now"] else words[1:] if words[0] == "restart" else []:
        if words[0] != "enable":
            stop(unit)
        if words[0] != "disable":
            start(unit)
    return 0


if __name__ == "__main__":
    sys.exit(main(sys.argv[1:]))
