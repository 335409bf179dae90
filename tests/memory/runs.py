#!/usr/bin/env python3
"""Runs events on a service over a disk in memory, with each allocation of the process refused in turn.

    python3 tests/memory/runs.py [PROGRAM]      PROGRAM is crates/service_runs/out/service_runs, which `rt run` leaves there

No command of vtserve makes a run of events in one call; this program does. Its lines are sent twice each. Of a refused allocation the program itself may
end with another status than 0, having answered some first lines right. Otherwise the run, or one event of it, is answered `Memory`, and every other
answer is that of the model without it; or a disk in memory lacked memory for a write, which is `Device`, and what follows isn't compared. The script ends
with 1 if a run does otherwise.
"""
import collections
import os
import subprocess
import sys
import tempfile
from pathlib import Path

HERE = Path(__file__).resolve().parent
sys.path.append(str(HERE.parents[1] / "model"))
from machine import Service
from service_lines import batch, looks, put, put_each
from service_stand import EVENTS, Trial

PROGRAM = os.path.abspath(sys.argv[1] if len(sys.argv) > 1 else HERE.parents[1] / "crates" / "service_runs" / "out" / "service_runs")
# The lines, of which those of edits, tiles and publications are runs of events.
LINES = ["disk 128", "format", "open", put(7), batch(put(8, 10), put(9)), f"{put(7, 20)}; tile 0 0 0; {batch('delete 9', put(10))}; {looks(7, 9)}", "begin",
         f"{batch(*put_each(20, 24))}; step; tile 2 0 0; delete 8", "publish", "tile 0 0 0; tile 2 0 0; tile 2 3 3", "metadata", "archive", "begin; cancel",
         f"{batch()}; {batch(put(1), put(1))}; {batch('delete 99')}; delete 99", "upgrade", "open", "tile 0 0 0; look 10", put(11), "tile 2 0 0"]
MEMORY = "Memory"


def asked():
    """Each line twice; but a disk is made and formatted once."""
    return [line for line in LINES for _ in range(1 if line.startswith(("disk", "format", "upgrade")) else 2)]


def run(lines, more):
    """The status of a process, and its answers."""
    asked = "".join(line + "\n" for line in ["part service", *lines])
    done = subprocess.run([PROGRAM], input=asked, capture_output=True, text=True, timeout=60, env=more)
    return done.returncode, done.stdout.split("\n")[:-1]


def of_events(trial, line, answer):
    """What a run of events did: the kind of its answer, or None if it may not be so."""
    if answer == MEMORY:
        return "run without memory"
    kind, parts = "answered", answer.split("; ")
    for event, part in zip(line.split("; "), parts):
        if part == f"Refused({MEMORY})":
            kind = "event without memory"
        elif part == "Refused(Device)":
            return "device"
        elif part != trial.event(event):
            return None
    return kind if len(parts) == line.count("; ") + 1 else None


def of_line(trial, line, answer):
    """The same of any line. A disk that can't be opened stays closed."""
    if line.split("; ")[0].split()[0] in EVENTS and isinstance(trial.session, Service):
        return of_events(trial, line, answer)
    if line == "open" and answer.startswith(f"{MEMORY} in "):
        trial.session = trial.taken()[0]
        return "call without memory"
    if answer in (f"Err({MEMORY})", MEMORY) or answer.startswith(f"Err({MEMORY}) "):
        return "call without memory"
    if "Device" in answer:
        return "device"
    return "answered" if answer == trial.answer(line) else None


def effect(lines, status, answers):
    """What a refused allocation did, or the line that was answered otherwise than it may be."""
    trial, found = Trial(), "no effect"
    for line, answer in zip(lines, answers):
        kind = of_line(trial, line, answer)
        if kind is None:
            return None, f"{line[:80]}: {answer[:200]}"
        if kind == "device":
            return kind, None
        found = kind if kind != "answered" else found
    if len(answers) < len(lines):
        return ("the program ends", None) if status else (None, "answers are missing")
    return found, None


def main():
    lines, effects, bad = asked(), collections.Counter(), 0
    with tempfile.TemporaryDirectory() as folder:
        shim, count = (os.path.join(folder, name) for name in ("refuse.so", "count"))
        subprocess.run(["gcc", "-shared", "-fPIC", "-o", shim, HERE / "refuse.c", "-ldl"], check=True)
        more = {"LD_PRELOAD": shim, "FAIL_AT": "0", "FAIL_COUNT": count}
        kind, wrong = effect(lines, *run(lines, more))
        if kind != "no effect":
            sys.exit(f"with memory: {kind} {wrong}")
        last = int(Path(count).read_text())
        for number in range(1, last + 1):
            kind, wrong = effect(lines, *run(lines, {**more, "FAIL_AT": str(number)}))
            effects[kind] += 1
            if wrong:
                bad += 1
                print(f"allocation {number}: {wrong}", flush=True)
    print(f"runs: {len(lines)} lines, {last} allocations: {dict(effects)}, {bad} bad")
    return 1 if bad else 0


if __name__ == "__main__":
    sys.exit(main())
