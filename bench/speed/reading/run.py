#!/usr/bin/env python3
"""How many instructions the crates take to verify an archive, to decode and to check a tile, to make one, or all of a map, to read a snapshot, to
open a map, and to read the JSON of an edit.

    python3 bench/speed/reading/run.py FOLDER [PROGRAM]

FOLDER has what the programs of `archives/` and `codec/` leave: 10000.pmtiles and points_1000.mvt; what isn't there is left out. PROGRAM is
main.rt.txt, compiled before; without it the script compiles it, unproved, in a scratch repository. A count is the difference of two runs of
different length, divided by the units in it. Needs valgrind.
"""
import json
import pathlib
import re
import shutil
import subprocess
import sys
import tempfile

HERE = pathlib.Path(__file__).resolve().parent
TOOLS = HERE.parent.parent / "tools"
CRATES = "pm_archive pm_verify feature_store feature_model edit_text edit_json mvt_layer hilbert_id serde_json anyhow"
# The work, its file, two numbers of turns, the units of a turn, and a unit.
ROWS = [
    ("verify", "10000.pmtiles", 1, 2, 10_000, "tile of one point"),
    ("decode", "points_1000.mvt", 1, 2, 1_000, "point with five tags"),
    ("check", "points_1000.mvt", 1, 2, 1_000, "point with five tags"),
    ("lines", None, 1, 2, 40_000, "point of a line that is decoded"),
    ("check-lines", None, 1, 2, 40_000, "point of a line that is checked"),
    ("tile", None, 16, 64, 1, "tile of 49 points with three tags"),
    ("city", None, 0, 1, 6_201, "tile of all of a city"),
    ("points", None, 0, 1, 100_000, "point with five tags, in all tiles that show it"),
    ("open", None, 1, 2, 10_000, "point with three tags"),
    ("start", None, 1, 2, 100_000, "point with five tags, with its place in the index"),
    ("json", "edit.json", 1, 5, 1, "text of 50 KB read as a JSON value"),
    ("edit", "edit.json", 1, 5, 1, "such text made a feature and its text"),
    ("json", "batch.json", 1, 5, 1, "text of 64 changes read as a JSON value"),
    ("batch", "batch.json", 1, 5, 1, "such text made changes"),
]


def counted(words):
    """The instructions of a command."""
    command = ["valgrind", "--tool=callgrind", "--callgrind-out-file=/dev/null", *map(str, words)]
    done = subprocess.run(command, stdout=subprocess.DEVNULL, stderr=subprocess.PIPE, check=False)
    found = re.search(rb"Collected : (\d+)", done.stderr)
    if done.returncode != 0 or not found:
        sys.exit(f"{words}: {done.stderr.decode()}")
    return int(found[1])


def compiled(work):
    """The program, compiled without proofs."""
    subprocess.run([sys.executable, TOOLS / "scratch.py", work, "reading", *CRATES.split()], check=True)
    source = work / "crates" / "reading" / "src"
    shutil.copy(HERE / "main.rt.txt", source / "main.rt")
    shutil.copy(HERE.parent / "city_features.rt.txt", source / "city_features.rt")
    subprocess.run([sys.executable, TOOLS / "unproved.py", work / "crates" / "reading", work / "program"], check=True)
    return work / "program"


def point(number):
    """A place of the world for each number."""
    return [number * 65_537 % 2**32, number * 131_071 % 2**32]


def feature(layer, geometry, number):
    """A feature with three tags, as JSON has it."""
    tags = {"class": "street", "lanes": number % 4, "name": f"feature {10_000 + number}"}
    return {"layer": layer, "minzoom": 0, "maxzoom": 16, "geometry": geometry, "tags": tags}


def write_edits(folder):
    """Writes the JSON of a line of 2,400 points and that of a batch of 64 points."""
    line = feature("roads", {"lines": [[point(i) for i in range(2_400)]]}, 0)
    changes = [{"put": i, "feature": feature("poi", {"points": [point(i)]}, i)} for i in range(64)]
    for name, value in (("edit.json", line), ("batch.json", {"changes": changes})):
        (folder / name).write_text(json.dumps(value, separators=(",", ":")))


def main(folder, program=None):
    with tempfile.TemporaryDirectory() as name:
        work = pathlib.Path(name)
        write_edits(work)
        program = program or compiled(work / "scratch")
        for what, file, few, many, units, unit in ROWS:
            path = (work if str(file).endswith(".json") else pathlib.Path(folder)) / file if file else "-"
            if file and not path.exists():
                continue
            count = counted([program, what, path, many]) - counted([program, what, path, few])
            print(f"{what}{' ' + file if file else ''}: {count / (many - few) / units:.1f} instructions for each {unit}", flush=True)


if __name__ == "__main__":
    main(*sys.argv[1:])
