"""Tells what the proofs of a run cost, crate by crate and function by function.

    python3 bench/tools/costs.py watch FILE              beside a run of `rt ci`, until it is killed: notes in FILE what it sees
    python3 bench/tools/costs.py crates FILE             seconds of the processor of each crate: its proof, its edits, its tests, its programs
    python3 bench/tools/costs.py functions FILE [CRATE]  the dearest functions of all crates, or of one
    python3 bench/tools/costs.py kept FOLDER             the same of what `rt check` keeps in a crate's folder

For `rt ci`, `rattle` writes a file for each part of a function's proof into a folder of its own among the temporary files, one after the other, and removes
the folder at the end; for `rt check` into `out/incremental` of the crate, where they stay: remove that folder first, so that all are of one run. The time
between two files is what the later one took, if the process has one job: `rt ci` gives a crate more only where processors are idle, and `RT_JOBS` sets how
many crates are under way; `rt check --jobs 1` has one. Of each part the name tells the kind: `Lts` is the borrow checker's, `Proof` the search for what no
`Answers.antt` answers, `Answers` what these take.
"""
import collections
import glob
import os
import pathlib
import pickle
import re
import subprocess
import sys
import tempfile
import time

KINDS = "Lts Proof Answers Tie Reads Code Mir Layout Kinds Named Met Given Goals View Statement Said Invariants".split()
EVERY = 4
# Seconds without a part that no proof takes.
PAUSE = 60


def processes():
    """The processes of rattle that run now: number, seconds of the processor so far, words of the command."""
    told = subprocess.run(["ps", "-eo", "pid,cputimes,args", "--no-headers", "-ww"], stdout=subprocess.PIPE, text=True).stdout
    for line in told.splitlines():
        pid, seconds, words = line.split(None, 2)
        if found := re.search(r"/rattle (build|check) --crate-name (\S+)", words):
            # (a library is built, so where one is only checked, an edit of it is tried)
            is_edit = "/rt-edits-" in words or found[1] == "check" and " src/lib.rt " in words
            kind = "tests" if " --test" in words else "edits" if is_edit else "proof"
            yield int(pid), int(seconds), found[2], kind


def watch(file):
    """Notes in the file, again and again, which processes there were, and when each part of a proof was written."""
    seen = {}
    while True:
        for pid, seconds, crate, kind in processes():
            one = seen.setdefault((pid, crate), {"kind": kind, "seconds": 0, "parts": {}})
            one["seconds"] = max(one["seconds"], seconds)
            for folder in glob.glob(f"{tempfile.gettempdir()}/rattle-logic-built-locked-{pid}-*"):
                try:
                    for part in os.scandir(folder):
                        if part.name not in one["parts"]:
                            stat = part.stat()
                            one["parts"][part.name] = stat.st_mtime, stat.st_size
                except OSError:
                    # (it is removed while it is read)
                    continue
        with open(f"{file}.new", "wb") as out:
            pickle.dump(seen, out)
        os.replace(f"{file}.new", file)
        time.sleep(EVERY)


def kept(folder):
    """The parts of proofs that checks of a crate keep, and when each was written."""
    home = pathlib.Path(folder).resolve()
    parts = {part.name: (part.stat().st_mtime, part.stat().st_size) for part in home.glob("out/incremental/*/*.oantt")}
    return {(0, home.name): {"kind": "check", "seconds": 0, "parts": parts}}


def crates(seen):
    """Prints the seconds of each crate by kind."""
    sums = collections.defaultdict(collections.Counter)
    for (_, crate), one in seen.items():
        sums[crate][one["kind"]] += one["seconds"]
    rows = sorted(sums.items(), key=lambda row: -row[1].total())
    for crate, by in [*rows, ("all", sum((by for _, by in rows), collections.Counter()))]:
        print(f"{crate:20}" + "".join(f"{kind} {by[kind]:5}  " for kind in ("proof", "edits", "tests")) + f"{by.total() / 60:6.1f} minutes")


def place_of(part):
    """The function or lemma file of a part, and its kind."""
    found = re.match(r"Rattle-\w+?-(?:proofs|specs)\.(.*)\.oantt$", part)
    if not found:
        return "the crate's own files", ""
    words, kind = found[1].split("."), ""
    while len(words) > 1 and words[-1] in KINDS:
        kind = words.pop()
    return ".".join(words), kind


def functions(seen, only):
    """Prints the dearest functions: seconds, MB of files, and the dearest kinds."""
    rows = collections.defaultdict(lambda: [0.0, 0, collections.Counter()])
    for (pid, crate), one in seen.items():
        parts = sorted((at, size, name) for name, (at, size) in one["parts"].items())
        for (before, _, _), (at, size, name) in zip(parts, parts[1:]):
            # (between two runs nothing was proved)
            took = at - before if at - before < PAUSE else 0
            place, kind = place_of(name)
            row = rows[crate, one["kind"], place]
            row[0] += took
            row[1] += size
            row[2][kind] += took
    dear = sorted(((key, row) for key, row in rows.items() if only in (None, key[0])), key=lambda item: -item[1][0])
    for (crate, kind, place), (seconds, size, by) in dear[:60]:
        print(f"{seconds:6.1f} s {size / 1e6:6.1f} MB  {crate} {place} ({kind}): " + ", ".join(f"{k} {s:.1f}" for k, s in by.most_common(3) if k))


def main():
    if len(sys.argv) < 3 or sys.argv[1] not in ("watch", "crates", "functions", "kept"):
        sys.exit(__doc__)
    if sys.argv[1] == "watch":
        watch(sys.argv[2])
    if sys.argv[1] == "kept":
        return functions(kept(sys.argv[2]), None)
    seen = pickle.loads(pathlib.Path(sys.argv[2]).read_bytes())
    if sys.argv[1] == "crates":
        crates(seen)
    else:
        functions(seen, sys.argv[3] if len(sys.argv) > 3 else None)


if __name__ == "__main__":
    main()
