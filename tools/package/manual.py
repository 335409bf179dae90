#!/usr/bin/env python3
"""Writes the man pages vtserve.1 and vtmap.1 from the help that the commands print: tools/package.sh calls it.

    python3 tools/package/manual.py PROGRAM FOLDER
"""
import importlib
import os
import re
import subprocess
import sys

TOP = os.path.join(os.path.dirname(os.path.abspath(__file__)), "..", "..")
sys.path.insert(0, TOP)

from vtmap import VERSION, command_line  # noqa: E402

SERVER = """vtserve keeps one map in a disk file, and serves it over HTTP: features go in as JSON, vector tiles of the latest edit come
out, and the whole map is published as a PMTiles archive. Every acknowledged edit survives a crash.

It listens on 127.0.0.1 only. Run nginx in front of it: /usr/share/vtserve/nginx.conf is an example."""
STATUSES = [("0", "done"), ("1", "an error: a line on standard error; of verify, the archive has a fault"), ("2", "the command line is invalid")]
SERVER_FILES = [
    ("/var/lib/vtserve/map.disk", "the disk file that the unit vtserve.service serves; make it by vtserve format, as the user vtserve"),
    ("/usr/share/vtserve/nginx.conf", "an example of nginx in front, for /etc/vtserve/nginx.conf"),
    ("/usr/share/vtserve/web", "the page that shows and edits the map; /etc/vtserve/style.json says how the map looks"),
    ("/usr/share/doc/vtserve", "README.md, and docs/DEPLOYING.md, COMMANDS.md, HTTP.md, OFFICE.md"),
]


def roff(text):
    """A text as roff shows it."""
    escaped = text.replace("\\", "\\e").replace("-", "\\-")
    return "\n".join("\\&" + line if line[:1] in (".", "'") else line for line in escaped.split("\n"))


def paragraphs(text):
    """Lines of paragraphs; one whose lines are indented is an example."""
    made = []
    for part in re.split(r"\n\s*\n", text.strip("\n")):
        if part.startswith("    "):
            made += [".PP", ".nf", roff(part), ".fi"]
        else:
            made += [".PP", roff(part.strip())]
    return made


def listed(rows):
    """Lines of a list: words in bold, and what they mean."""
    return [line for word, meaning in rows for line in (".TP", ".B " + roff(word), roff(meaning or ""))]


def printed(*words):
    """What a command prints."""
    return subprocess.run(words, capture_output=True, text=True, check=True).stdout


def helped(text):
    """The about, the usage and the lists of a help of vtserve, each list as rows."""
    about, _, rest = text.partition("\n\n")
    usage = re.search(r"^Usage: (.*)$", rest, re.MULTILINE)[1]
    lists = {}
    for title, lines in re.findall(r"^(\w+):\n((?:  .*\n?)+)", rest, re.MULTILINE):
        lists[title] = [tuple(re.split(r"  +", line.strip(), maxsplit=1)) for line in lines.splitlines()]
    return about, usage, {title: [(row[0], row[1] if len(row) > 1 else "") for row in rows] for title, rows in lists.items()}


def server(program):
    """The man page of vtserve."""
    about, _, lists = helped(printed(program, "--help"))
    lines = [f'.TH VTSERVE 1 "" "vtserve {VERSION}"', ".SH NAME", "vtserve \\- " + roff(about), ".SH SYNOPSIS", ".nf"]
    body = []
    for name, text in lists["Commands"]:
        if name != "help":
            _, usage, rows = helped(printed(program, name, "--help"))
            lines.append(roff(usage))
            words = [row for title in ("Arguments", "Options") for row in rows.get(title, []) if "--help" not in row[0]]
            body += [".SS " + name, roff(text + "."), *listed(words)]
    lines += [".fi", ".SH DESCRIPTION", *paragraphs(SERVER), ".SH COMMANDS", *body]
    return lines + [".SH EXIT STATUS", *listed(STATUSES), ".SH FILES", *listed(SERVER_FILES), ".SH SEE ALSO", ".BR vtmap (1)"]


def words_of(action):
    """How an option or an argument of vtmap is written."""
    value = action.metavar or (action.dest.upper() if action.nargs != 0 and action.option_strings else "")
    if not action.option_strings:
        return str(action.metavar or action.dest)
    return ", ".join(action.option_strings) + (f" {value}" if value and action.nargs != 0 else "")


def toolbox():
    """The man page of vtmap."""
    about, _, rest = command_line.ABOUT.partition("\n\n")
    after = rest.partition("\n\n")[2]
    lines = [f'.TH VTMAP 1 "" "vtserve {VERSION}"', ".SH NAME", "vtmap \\- the toolbox for the map of a vtserve", ".SH SYNOPSIS"]
    lines += [".B vtmap", "[\\-\\-url URL] COMMAND ..", ".SH DESCRIPTION", *paragraphs(about), *paragraphs(after), ".SH COMMANDS"]
    for name, (module, _) in command_line.COMMANDS.items():
        parser = command_line.parser_of(name, importlib.import_module("vtmap.commands." + module))
        actions = [action for action in parser._actions if action.dest != "help" and action.help != "==SUPPRESS=="]
        lines += [".SS " + roff(name), *paragraphs(parser.description)]
        lines += listed([(words_of(action), (action.help or "") % {"default": action.default}) for action in actions])
    files = [("/usr/lib/vtserve/vtmap", "the commands"), ("/usr/share/doc/vtserve/docs/OFFICE.md", "a day with a map")]
    return lines + [".SH FILES", *listed(files), ".SH SEE ALSO", ".BR vtserve (1)"]


def main():
    program, folder = sys.argv[1:]
    for name, lines in (("vtserve", server(program)), ("vtmap", toolbox())):
        with open(os.path.join(folder, name + ".1"), "w", encoding="utf-8") as file:
            file.write("\n".join(lines) + "\n")


if __name__ == "__main__":
    main()
