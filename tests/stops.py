#!/usr/bin/env python3
"""Random runs on disks of which calls fail, each followed by a crash and an opening: more of those that `service_runs` has, by other seeds.

    python3 tests/stops.py PROGRAM FIRST LAST       PROGRAM is crates/service_runs/out/service_runs, which `rt run` leaves there

For each seed from FIRST to LAST there are 60 runs on a disk of 4,096 sectors with 300 features, 240 on disks of 80 to 379 sectors, and 200 with
batches on such disks of both versions, with upgrades between them. The model writes the lines and their answers; they also check the model, that a
crash leaves the acknowledged edits and all changes of the next one or none. It prints a line for each seed, and ends with 1 at the first answer that
differs.
"""
import subprocess
import sys
from pathlib import Path

sys.path.append(str(Path(__file__).resolve().parents[1] / "model"))
from service_random import batch_turn, large_disk, random_runs
from service_stand import Trial


def difference(program, lines):
    """The first line whose answer differs, with the model's answer and the program's; None if there is none."""
    trial = Trial()
    expected = [trial.answer(line) for line in lines]
    asked = "".join(line + "\n" for line in ["part service", *lines])
    answers = subprocess.run([program], input=asked, capture_output=True, text=True, timeout=600).stdout.splitlines()
    answers += ["no answer"] * (len(lines) - len(answers))
    return next((found for found in zip(lines, expected, answers) if found[1] != found[2]), None)


def main(program, first, last):
    for seed in range(int(first), int(last) + 1):
        lines = [*large_disk(seed, 60), *random_runs(seed, 240), *random_runs(seed + 10**6, 200, batch_turn)]
        found = difference(program, lines)
        if found:
            print(f"seed {seed}: differs", *found, sep="\n    ")
            return 1
        stops, upgrades = (sum(line.startswith(word) for line in lines) for word in ("crash", "upgrade"))
        steps, batches = (sum(line.count(word) for line in lines) for word in ("step", "batch"))
        print(f"seed {seed}: {stops} runs, {len(lines)} lines, {steps} steps of publications, {batches} batches, {upgrades} upgrades: the same", flush=True)
    return 0


if __name__ == "__main__":
    sys.exit(main(*sys.argv[1:]))
