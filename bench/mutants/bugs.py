#!/usr/bin/env python3
"""Which lines of the gate's scripts catch bugs that no clause refuses: a call that is always out of memory, a connection that always ends by its number of
reads, replies that depend on the pieces in which requests arrive, a grid whose newest edit is always the greatest, and a tile that is always cut.

    python3 bench/mutants/bugs.py

The last two and the first are planted in the models beside this script: a line catches the bug if the model with it answers otherwise than
`stdout` says. For the others the lines are counted whose answer such a program can't give. It prints a line for each bug and script, with the number
of lines and the first of them, and ends with 1 if there are none. It takes some minutes.
"""
import contextlib
import re
import sys
from pathlib import Path

HERE = Path(__file__).resolve().parent
sys.path.append(str(HERE.parents[1] / "model"))
import map_stand
import service_stand
from disk import LAST_NUMBER
from limits import MAX_ZOOM
from machine import Refused, Service
from tiles import tile


def script(crate, part=None):
    """The lines of a script, or of a part of it, and their answers, each with its number. A line that begins a part has no answer."""
    asked, answers = ((HERE.parents[1] / "crates" / crate / name).read_text().splitlines() for name in ("stdin", "stdout"))
    found, now, rest = [], None, iter(answers)
    for number, line in enumerate(asked, 1):
        if line.startswith("part "):
            now = line.removeprefix("part ")
            continue
        row = number, line, next(rest)
        if now == part:
            found.append(row)
    return found


@contextlib.contextmanager
def planted(owner, name, other):
    """Another body for a function of a model."""
    before = getattr(owner, name)
    setattr(owner, name, other)
    yield
    setattr(owner, name, before)


def differing(trial, rows):
    """The lines that a model answers otherwise. After an error it goes on with the next line."""
    for number, line, answer in rows:
        try:
            found = trial.answer(line)
        except Exception as error:
            found = repr(error)
        if found != answer:
            yield number, line, answer


def out_of_memory(*_):
    raise Refused("Memory")


def cut(service, *place):
    """A tile that is cut each time."""
    return tile(service.map, *place) if place[0] <= MAX_ZOOM else b""


def greatest(*_):
    return LAST_NUMBER


def of_service():
    """The bugs of a service, each planted in its model."""
    for name in ("put", "batch", "begin", "tile", "metadata"):
        yield f"always_out_of_memory, {name}", Service, name, out_of_memory
    yield "newest_always_greatest", Service, "newest", greatest
    yield "tile_always_cuts", Service, "tile", cut


def lines_of(rows, asked, answered):
    """The lines of these forms whose answers have these forms."""
    return [row for row in rows if re.match(asked, row[1]) and re.search(answered, row[2])]


def of_map():
    """The same of a map without a disk."""
    yield "newest_always_greatest", map_stand.Grid, "newest", greatest
    yield "tile_always_cuts", map_stand.Cache, "get", lambda *_: None


def of_connections(rows):
    """Lines of connections by what catches them."""
    yield "always_out_of_memory", lines_of(rows, "ask|wait", r"HTTP/1\.1 2")
    yield "always_turns", lines_of(rows, "ask|wait", r"end: (Closed|Refused|Asked)|Err\(")
    # A line with several sizes has each reply once: the others are the same bytes.
    yield "bytes_depend_on_the_pieces", lines_of(rows, r"(ask|wait) \d+,", " same, ")


def shown(bug, crate, found):
    """Prints what catches a bug, and returns whether anything does."""
    first = "" if not found else f", first {found[0][0]}: {found[0][1][:60]} -> {found[0][2][:60]}"
    print(f"{bug}: {len(found)} lines of {crate}{first}", flush=True)
    return bool(found)


def main():
    rows, good = script("service_runs", "service"), True
    for bug, owner, name, other in of_service():
        with planted(owner, name, other):
            good &= shown(bug, "service_runs, part service", list(differing(service_stand.Trial(), rows)))
    rows = script("map_runs", "maps")
    for bug, owner, name, other in of_map():
        with planted(owner, name, other):
            good &= shown(bug, "map_runs", list(differing(map_stand.Stand(), rows)))
    for bug, found in of_connections(script("service_runs", "connections")):
        good &= shown(bug, "service_runs, part connections", found)
    return 0 if good else 1


if __name__ == "__main__":
    sys.exit(main())
