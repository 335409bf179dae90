#!/usr/bin/env python3
"""Makes lines of the gate's test programs at random, from damaged bytes and texts, and compares their answers with the models.

    python3 bench/fuzz/lines.py MAP_RUNS SERVICE_RUNS [--seed N] [--seconds N]

MAP_RUNS and SERVICE_RUNS are the programs of these crates, which `rt run` leaves in their `out/`. One process answers 1,500
lines, so some thousand lines a second are compared: tiles, texts of changes and edits, directories, metadata, archives and their
contents, features and edits as JSON, snapshots, records of both versions, and connections in pieces of two sizes. Each process has the lines of
one seed; the next ones have those of the next seed. The script prints each line that differs, and ends with 1 if one does or a process ends with
another status than 0.
"""
import argparse
import random
import subprocess
import sys
import time

import run as fuzz
import map_hostile
import map_stand
import read_stand
from archives import DirectoryEntry, directory
from disk import Change, edit_text, text_of
from map_stand import POINT
from map_texts import LINE, POLYGONS
from odd_edits import compact, odd_body
from reply_edits import deletes, of_other_forms, sets
from reply_stand import Script

LINES, CONNECTIONS, LONGEST = 1500, 150, 3000
TIMES = (1, 1, 1, 2, 2, 3)
# Of edits that are nearly right half stay as they are: damage mostly makes JSON unreadable.
FEWER_TIMES = (0, 0, 0, 1, 1, 2)
CHANGES = [text_of(made) for made in (Change(7, POINT), Change(258, LINE), Change(9, POLYGONS), Change(9, None))]
EDITS = [edit_text(made) for made in ([Change(7, POINT), Change(9, None)], [Change(7, LINE)], [Change(1, POLYGONS), Change(2, POINT)])]
SNAPSHOTS = [CHANGES[0], CHANGES[0] + CHANGES[2] + CHANGES[1]]
DIRECTORIES = [directory([DirectoryEntry(3, 2, 300, 0), DirectoryEntry(5, 1, 9, 300), DirectoryEntry(7, 0, 5, 2)]),
               directory([DirectoryEntry(2 * k, 1, 5, 5 * k) for k in range(20)]), b"\0"]
EDIT_TEXTS = [body for body in of_other_forms() if isinstance(body, bytes) and len(body) < LONGEST]
EDIT_TEXTS += [compact({"changes": changes}).encode() for changes in ([sets(7), sets(8)], [sets(7), deletes(9)], [deletes(number) for number in range(64)])]
TEXTS = [body for body in fuzz.BODIES if len(body) < LONGEST] + [map_hostile.feature().encode()]
TILES, ARCHIVES = fuzz.all_tiles(), fuzz.all_archives()
STREAMS = [held for held in fuzz.Corpus().streams if len(held) < LONGEST]
READ = [("tile", TILES), ("tile", TILES), ("change", CHANGES), ("edit", EDITS), ("directory", DIRECTORIES), ("metadata", TEXTS), ("verify", ARCHIVES),
        ("contents 0,3,12,20", ARCHIVES)]
MAP = [("json", TEXTS), ("changes", EDIT_TEXTS), ("restore", SNAPSHOTS), ("make", EDITS), ("record 1", CHANGES), ("record 2", EDITS)]


def line(chance, rows):
    """A line about damaged bytes."""
    word, sources = chance.choice(rows)
    source = compact(odd_body(chance)).encode() if word == "changes" and chance.randrange(4) else chance.choice(sources)
    held = fuzz.damaged(chance, source, sources, FEWER_TIMES if word == "changes" else TIMES)
    held = held if word == "changes" else held[:LONGEST]
    if word not in ("json", "changes"):
        return f"{word} {held.hex() or '-'}" if rows is READ else f"{word} {held.hex()}"
    # A line is text, and an angle bracket in it begins a text that is repeated.
    return f"{word} " + "".join(mark for mark in held.decode("utf-8", "replace") if mark not in "\r\n<>")


def differences(program, begin, asked, wanted):
    """The lines of a process whose answers differ, each with the answer that is wanted and the one that is found. `begin` is the text in front of them, which
    has no answer."""
    done = subprocess.run([program], input=(begin + "".join(each + "\n" for each in asked)).encode(), capture_output=True, timeout=60)
    found = done.stdout.decode().split("\n")[:-1]
    differ = [row for row in zip(asked, wanted, found) if row[1] != row[2]]
    if done.returncode or len(found) != len(asked):
        differ.append((f"status {done.returncode}", f"{len(asked)} answers", f"{len(found)} answers"))
    return differ


def of_bytes(stand, rows, seed):
    """The lines of a seed, and their answers."""
    chance = random.Random(f"{seed} {len(rows)}")
    asked = [line(chance, rows) for _ in range(LINES)]
    if rows is MAP:
        asked = ["map 0", *asked]
    return asked, [stand.answer(each) for each in asked]


def of_connections(seed):
    """The same of connections to one map, in pieces of two sizes."""
    chance, script = random.Random(f"{seed} connections"), Script()
    script.disk(256)
    for _ in range(CONNECTIONS):
        held = fuzz.stream(chance) if chance.randrange(2) else chance.choice(STREAMS)
        held = fuzz.damaged(chance, held, STREAMS, (0, 1, 1, 1, 2, 2, 3))[:4 * LONGEST]
        script.connect(f"4096,{chance.choice([1, 2, 7, 100])}", [held], chance.randrange(4) == 0)
    return script.lines, script.answers


def main(words):
    parser = argparse.ArgumentParser()
    parser.add_argument("map_runs")
    parser.add_argument("service_runs")
    parser.add_argument("--seed", type=int, default=1)
    parser.add_argument("--seconds", type=int, default=60)
    options = parser.parse_args(words)
    end, seed, count, faults = time.monotonic() + options.seconds, options.seed, 0, 0
    while time.monotonic() < end:
        makers = [(options.map_runs, "part reads\n", lambda: of_bytes(read_stand.Stand(), READ, seed)),
                  (options.map_runs, "part maps\n", lambda: of_bytes(map_stand.Stand(), MAP, seed)),
                  (options.service_runs, "part connections\n", lambda: of_connections(seed))]
        for program, begin, make in makers:
            asked, wanted = make()
            differ = differences(program, begin, asked, wanted)
            count, faults = count + len(asked), faults + len(differ)
            for row in differ[:5]:
                print("{:.400}\n    wanted {:.200}\n    found  {:.200}".format(*row), flush=True)
        seed += 1
    print(f"seeds {options.seed} to {seed - 1}: {count} lines, {faults} differ")
    return 1 if faults else 0


if __name__ == "__main__":
    sys.exit(main(sys.argv[1:]))
