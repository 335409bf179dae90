#!/usr/bin/env python3
"""Runs the commands of README.md and of docs/HTTP.md, COMMANDS.md, DEPLOYING.md and OFFICE.md, and compares what they
print with what the page says.

    python3 tests/documents.py [PROGRAM] [--page PAGE] [--show]    PROGRAM is crates/vtserve/out/vtserve
    python3 tests/documents.py --lists                             the pages' own lists, words, links and drawing alone
                                                                   (page_lists.py)

A command is a line `$ COMMAND` of a block that begins with three backquotes and `console`; it continues over lines that
end in a backslash, and to the end of a here-document. The lines below it are its output, standard error included. `...`
alone on a line matches any lines, `[..]` in a line any characters. Blocks marked `sh` are commands that need another
machine (systemd, a package registry, the network); they are counted, and not run.

The commands of a page run in one bash, in order, in a fresh folder with copies of vtmap/, bin/, web/, examples/, docs/,
tools/ and crates/vtserve/stdin, as in a clone, with PROGRAM in crates/vtserve/out/ and on the PATH, and /usr/sbin for
pages that root reads. Each page has its own network, processes, /etc, /usr/local and /var/lib (`unshare` and an
overlay, so this needs root on Linux): ports and paths are as written, and nothing of the machine changes. Prints each
difference and the counts, and ends with 1 if there is a difference. --show prints all that the commands print. Without
--page it also checks the lists, and that the page and OFFICE.md have the reasons of refusals of
vtmap/client/refusals.py.
"""
import argparse
import os
import pty
import re
import select
import shutil
import subprocess
import sys
import tempfile
import time

import page_lists

HERE = os.path.dirname(os.path.abspath(__file__))
TOP = os.path.dirname(HERE)
PAGES = ["README.md", "docs/HTTP.md", "docs/COMMANDS.md", "docs/DEPLOYING.md", "docs/OFFICE.md"]
# Pages whose commands are run as root.
OF_ROOT = ["docs/DEPLOYING.md"]
OWN = ["/etc", "/usr/local", "/var/lib"]
SECONDS = 600
MAX_LINES = 40


def commands(text):
    """The commands of a page, each with its line and the lines of its output, and how many aren't run."""
    found, left_out, block, lines = [], 0, None, iter(enumerate(text.splitlines(), 1))
    for number, line in lines:
        if line.startswith("```"):
            block = line[3:].strip() if block is None else None
        elif block == "console" and line.startswith("$ "):
            command = [line[2:]]
            end = re.search(r"<<'?(\w+)'?", line)
            while command[-1].endswith("\\") or (end and command[-1] != end[1]):
                command.append(next(lines)[1])
            found.append((number, "\n".join(command), []))
        elif block == "console" and found:
            found[-1][2].append(line)
        elif block == "sh" and line.strip() and not line.startswith((" ", "#")):
            left_out += 1
    return found, left_out


def pattern(lines):
    """The regular expression of the output that a page says."""
    made = []
    for line in lines:
        if line == "...":
            made.append(r"(?:.*\n)*?")
        else:
            made.append(r".*?".join(re.escape(part) for part in line.split("[..]")) + r"\n")
    return re.compile("".join(made))


def tidy(text):
    """What was printed, without carriage returns, colours and the spaces at the end of lines."""
    lines = [line.rstrip() for line in re.sub(r"\x1b\[[0-9;]*m", "", text.replace("\r", "")).split("\n")]
    while lines and not lines[-1]:
        lines.pop()
    return "".join(line + "\n" for line in lines)


def short(text):
    """The first lines of a text."""
    lines = text.splitlines(True)
    return "".join(lines[:MAX_LINES]) + (f"(and {len(lines) - MAX_LINES} lines)\n" if len(lines) > MAX_LINES else "")


class Shell:
    """A bash whose standard output and standard error are a terminal, and whose standard input is empty."""

    def __init__(self, folder, program, is_root):
        self.screen, terminal = pty.openpty()
        script, self.script = os.pipe()
        known = os.environ.get("PATH", "").split(":")
        further = [*known, "/usr/sbin"] if is_root else [place for place in known if not place.endswith("sbin")]
        places = ":".join([os.path.dirname(program), *further])
        words = {"PATH": places, "HOME": folder, "LANG": "C.UTF-8", "TERM": "dumb"}
        self.child = subprocess.Popen(
            ["bash", "--norc", f"/dev/fd/{script}"],
            cwd=folder,
            env=words,
            stdin=subprocess.DEVNULL,
            stdout=terminal,
            stderr=terminal,
            pass_fds=[script],
        )
        os.close(terminal)
        os.close(script)
        self.read = ""

    def take(self, until):
        """Reads until a time or to a silence of 50 ms."""
        while time.monotonic() < until and select.select([self.screen], [], [], 0.05)[0]:
            self.read += os.read(self.screen, 65536).decode("utf-8", "replace")

    def run(self, command, expected):
        """What a command prints. One in the background has five seconds to print what is expected."""
        background = command.rstrip().endswith("&")
        mark, before = "the end of one command", "" if background else "\\n"
        os.write(self.script, f"{command}\nprintf '{before}{mark}\\n'\n".encode())
        end = time.monotonic() + SECONDS
        marked = re.compile(rf"{before}{mark}\r?\n")
        while not marked.search(self.read):
            if time.monotonic() > end or self.child.poll() is not None:
                return tidy(self.read) + "(no end of this command was seen)\n"
            self.take(end)
        if background:
            end = time.monotonic() + 5
            while time.monotonic() < end and not expected.fullmatch(self.printed(marked)):
                self.take(end)
        found, self.read = self.printed(marked), ""
        return found

    def printed(self, marked):
        """What was read, before and after the mark."""
        before, after = marked.split(self.read, 1)
        return tidy(before) + tidy(after)


def run_page(page, program, show):
    """Runs the commands of a page, in the namespaces that this process has. Returns how many differ."""
    subprocess.run(["ip", "link", "set", "lo", "up"], check=False)
    with tempfile.TemporaryDirectory() as scratch:
        subprocess.run(["mount", "-t", "tmpfs", "-o", "mode=755", "tmpfs", scratch], check=True)
        for number, own in enumerate(OWN):
            upper, work, folder = f"{scratch}/upper{number}", f"{scratch}/work{number}", f"{scratch}/clone"
            os.makedirs(upper)
            os.makedirs(work)
            layers = f"lowerdir={own},upperdir={upper},workdir={work}"
            subprocess.run(["mount", "-t", "overlay", "overlay", "-o", layers, own], check=True)
        for name in ["vtmap", "bin", "web", "examples", "docs", "tools"]:
            shutil.copytree(os.path.join(TOP, name), os.path.join(folder, name))
        os.makedirs(f"{folder}/crates/vtserve")
        shutil.copy(os.path.join(TOP, "crates", "vtserve", "stdin"), f"{folder}/crates/vtserve/stdin")
        for place in (f"{scratch}/bin", f"{folder}/crates/vtserve/out"):
            os.makedirs(place)
            shutil.copy(program, f"{place}/vtserve")
        with open(os.path.join(TOP, page), encoding="utf-8") as file:
            rows, left_out = commands(file.read())
        shell, differ = Shell(folder, f"{scratch}/bin/vtserve", page in OF_ROOT), 0
        for number, command, lines in rows:
            expected = tidy("\n".join(lines) + "\n")
            sought = pattern(expected.splitlines())
            found = shell.run(command, sought)
            if show:
                print(f"$ {command}\n{found}", end="")
            if not sought.fullmatch(found):
                differ += 1
                print(f"{page}:{number}: $ {command}\nprints\n{short(found)}", end="")
                print(f"where the page says\n{expected}", flush=True)
        print(f"{page}: {len(rows)} commands run, {differ} differ; {left_out} not run", flush=True)
        subprocess.run(["umount", "-l", *reversed(OWN), scratch], check=False)
    return differ


def main():
    parser = argparse.ArgumentParser(description="Runs the commands of the documents, and compares what they print.")
    parser.add_argument("program", nargs="?", default=os.path.join(TOP, "crates", "vtserve", "out", "vtserve"))
    parser.add_argument("--page", action="append", help="a page to run (all)")
    parser.add_argument("--show", action="store_true", help="print all that the commands print")
    parser.add_argument("--lists", action="store_true", help="check what the pages list, and run nothing")
    parser.add_argument("--inside", action="store_true", help=argparse.SUPPRESS)
    words = parser.parse_args()
    program = os.path.abspath(words.program)
    if words.lists:
        return 1 if page_lists.check() else 0
    if words.inside:
        return 1 if run_page(words.page[0], program, words.show) else 0
    differ = 0
    for page in words.page or PAGES:
        apart = ["unshare", "--net", "--mount", "--pid", "--fork", "--kill-child", "--mount-proc"]
        again = [sys.executable, os.path.abspath(__file__), program, "--page", page, "--inside"]
        again += ["--show"] if words.show else []
        differ += subprocess.run([*apart, *again], check=False).returncode != 0
    if not words.page:
        differ += page_lists.check()
        reasons = [sys.executable, "-m", "vtmap.client.refusals", "check"]
        differ += subprocess.run(reasons, cwd=TOP, check=False).returncode != 0
    print(f"{len(words.page or PAGES)} pages, {differ} differ")
    return 1 if differ else 0


if __name__ == "__main__":
    sys.exit(main())
