#!/usr/bin/env python3
"""What another allocator is worth: opening a disk with a city of 25,000 features in its journal, and publishing it, with the allocator of
the C library and with one that is preloaded.

    python3 bench/speed/allocator/run.py [PROGRAM [LIBRARY]]    LIBRARY is /usr/lib/x86_64-linux-gnu/libtcmalloc_minimal.so.4 unless given
                                                          (Debian: libtcmalloc-minimal4; time)

Processor time of whole processes of `pipe`, by turns, five rounds: the median with the least and the greatest. The ratio is the time
with the library divided by that without it: the peer's divided by vtserve's, so below 1 the library is faster, and of memory below 1 it
takes less. Memory is the peak of an opening, less that of a disk without features, for each feature.
"""
import json
import os
import resource
import shutil
import statistics
import subprocess
import sys
import tempfile

HERE = os.path.dirname(os.path.abspath(__file__))
sys.path.append(os.path.dirname(HERE))
from city_features import FEATURES, city_feature  # noqa: E402

PROGRAM = os.path.abspath(sys.argv[1] if len(sys.argv) > 1 else os.path.join(HERE, "..", "..", "..", "crates", "vtserve", "out", "vtserve"))
LIBRARY = sys.argv[2] if len(sys.argv) > 2 else "/usr/lib/x86_64-linux-gnu/libtcmalloc_minimal.so.4"
ROUNDS, BATCH = 5, 32
PUBLISH = b"POST /publish HTTP/1.1\r\nhost: a\r\ncontent-length: 0\r\n\r\n"


def batches():
    """Requests that put the city."""
    for first in range(1, FEATURES + 1, BATCH):
        changes = [{"put": number, "feature": city_feature(number)} for number in range(first, min(first + BATCH, FEATURES + 1))]
        body = json.dumps({"changes": changes}, separators=(",", ":")).encode()
        yield b"POST /edits HTTP/1.1\r\nhost: a\r\ncontent-length: %d\r\n\r\n%s" % (len(body), body)


def piped(disk, requests, library=None, told=os.devnull):
    """What `pipe` prints on a disk. Its peak memory in KiB is written to a file."""
    environment = dict(os.environ, LD_PRELOAD=library) if library else None
    words = ["/usr/bin/time", "-f", "%M", "-o", told, PROGRAM, "pipe", disk]
    return subprocess.run(words, input=requests, stdout=subprocess.PIPE, env=environment, check=True).stdout


def measured(folder, disk, requests, library):
    """The processor time in milliseconds, the peak memory in bytes and the count of replies 200 of `pipe`."""
    told = os.path.join(folder, "told")
    before = resource.getrusage(resource.RUSAGE_CHILDREN)
    out = piped(disk, requests, library, told)
    after = resource.getrusage(resource.RUSAGE_CHILDREN)
    with open(told) as file:
        peak = int(file.read()) * 1024
    return (after.ru_utime + after.ru_stime - before.ru_utime - before.ru_stime) * 1000, peak, out.count(b"200 OK")


def line(name, plain, other, unit):
    ratios = [peer / ours for ours, peer in zip(plain, other)]
    spread = [f"{statistics.median(of):.0f} {unit} ({min(of):.0f} to {max(of):.0f})" for of in (plain, other)]
    print(f"{name}: {spread[0]}; preloaded {spread[1]}; ratio {statistics.median(ratios):.2f} ({min(ratios):.2f} to {max(ratios):.2f})", flush=True)


def main():
    with tempfile.TemporaryDirectory() as folder:
        empty, city, copy = (os.path.join(folder, name) for name in ("empty", "city", "copy"))
        for disk in (empty, city):
            subprocess.run([PROGRAM, "format", disk, "--sectors", "262144"], check=True, stdout=subprocess.DEVNULL)
        made = piped(city, b"".join(batches()))
        wanted = -(-FEATURES // BATCH)
        if made.count(b"200 OK") != wanted:
            raise SystemExit(f"{made.count(b'200 OK')} of {wanted} batches were made")
        opened, published, memory = {None: [], LIBRARY: []}, {None: [], LIBRARY: []}, {None: [], LIBRARY: []}
        for _ in range(ROUNDS):
            for library in (None, LIBRARY):
                without = measured(folder, empty, b"", library)
                opening = measured(folder, city, b"", library)
                shutil.copyfile(city, copy)
                publishing = measured(folder, copy, PUBLISH, library)
                if publishing[2] != 1:
                    raise SystemExit("the city wasn't published")
                opened[library].append(opening[0])
                published[library].append(publishing[0] - opening[0])
                memory[library].append((opening[1] - without[1]) / FEATURES)
        line(f"opening of {FEATURES} features in the journal", opened[None], opened[LIBRARY], "ms")
        line("their publication", published[None], published[LIBRARY], "ms")
        line("memory of a feature", memory[None], memory[LIBRARY], "bytes")


main()
