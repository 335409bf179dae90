#!/usr/bin/env python3
"""Writes the template units of a machine with several maps, docs/vtserve@.service and its companions, from the units of
a machine with one.

    python3 tools/templates.py [--check]    with --check it writes nothing, and ends with 1 if a file differs

An instance is a map: `vtserve@north` serves /var/lib/vtserve/north/map.disk on the port that /etc/vtserve/maps/north
says. `vtmap maps` writes that file. docs/DEPLOYING.md explains both. Change the unit of one map, and run this.
"""
import argparse
import glob
import os
import re
import sys

DOCS = os.path.join(os.path.dirname(os.path.abspath(__file__)), "..", "docs")
TIMERS = ("vtserve-publish", "vtserve-watch", "vtserve-backup")
UNITS = ("vtserve", *TIMERS, "vtserve-log", "vtserve-standby", "vtserve-wfs", "vtserve-wmts")
# The template that isn't made of the unit of one map: an instance is a port.
OTHER = "vtserve-replica@.service"
WORDS = "EnvironmentFile=/etc/vtserve/maps/%i\n"
# What an instance has of its own: files, ports, the path behind nginx.
OWN = (
    (r"/var/lib/vtserve/map\.disk", "/var/lib/vtserve/%i/map.disk"),
    (r"(ReadWritePaths=/var/lib/vtserve|/var/backups/vtserve)(?=[ /\n])", r"\1/%i"),
    (r"/var/lib/vtserve-nginx/edits\.log", "/var/lib/vtserve-nginx/edits-%i.log"),
    (r"(/var/lib/vtserve-(?!nginx)\w+)(?=/)", r"\1/%i"),
    (r"(StateDirectory=vtserve-\w+)", r"\1/%i"),
    (r"--port 8080", "--port ${PORT}"),
    (r"http://127\.0\.0\.1:8080", "http://127.0.0.1:${PORT}"),
    (r"http://127\.0\.0\.1:8090", "http://127.0.0.1:${GATEWAY}"),
    (r"http://([\w.]+):8000", r"http://\1:8000/%i"),
    (r"vtmap wfs ", "vtmap wfs --port ${GATEWAY} "),
    (r"vtmap wmts (?=--url)", "vtmap wmts --port ${PICTURES} --title %i --bounds=${BOUNDS} "),
    (r"(--metrics \S+)", r"\1 --map %i"),
    # Not all maps at once, and each at the same time each day.
    (r"RandomizedDelaySec=10min", "RandomizedDelaySec=50min"),
    (r"RandomizedDelaySec=30min", "RandomizedDelaySec=3h"),
    (r"RandomizedDelaySec=30s", "RandomizedDelaySec=2min"),
)
# The other units that a unit, or its comments, name.
NAMES = (
    (r"\b(vtserve(?:-(?:publish|watch|backup|log|standby|wfs|wmts))?)\.(service|timer)", r"\1@.\2"),
    (r"(?m)^(After|Before|Wants|BindsTo|PartOf)=(.*)$", lambda found: found[0].replace("@.", "@%i.")),
    (r"(?m)^(Description=.*)$", r"\1: %i"),
)


def of_one(text: str) -> str:
    """The text of a template, by that of the unit of one map."""
    for sought, put in (*OWN, *NAMES):
        text = re.sub(sought, put, text)
    return re.sub(r"(?m)^((?!#).*\n)*?(?=ExecStart=)", lambda found: found[0] + WORDS, text, count=1)


def templates() -> dict[str, str]:
    """The text of each template, by its file name."""
    names = [f"{name}.service" for name in UNITS] + [f"{name}.timer" for name in TIMERS]
    found = {}
    for name in names:
        with open(os.path.join(DOCS, name), encoding="utf-8") as file:
            stem, kind = name.split(".")
            found[f"{stem}@.{kind}"] = of_one(file.read())
    return found


def kept() -> dict[str, str]:
    """The text of each template that there is, by its file name."""
    found = {}
    for path in glob.glob(os.path.join(DOCS, "vtserve*@.*")):
        if os.path.basename(path) == OTHER:
            continue
        with open(path, encoding="utf-8") as file:
            found[os.path.basename(path)] = file.read()
    return found


def main() -> int:
    parser = argparse.ArgumentParser(description="Writes the template units of a machine with several maps.")
    parser.add_argument("--check", action="store_true", help="write nothing, and say which files differ")
    words = parser.parse_args()
    wanted, there = templates(), kept()
    differ = sorted(name for name in {*wanted, *there} if wanted.get(name) != there.get(name))
    for name in differ:
        print(f"docs/{name} {'differs' if words.check else 'is written'}")
        if not words.check:
            with open(os.path.join(DOCS, name), "w", encoding="utf-8") as file:
                file.write(wanted[name])
    return 1 if differ and words.check else 0


if __name__ == "__main__":
    sys.exit(main())
