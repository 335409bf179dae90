#!/usr/bin/env python3
"""Damages archives, tiles, disks and streams of requests at random, and runs the program on them.

    python3 bench/fuzz/run.py [--program PROGRAM] [--seed N] [--seconds N] [--only TARGET]

PROGRAM is crates/vtserve/out/vtserve, which `rt run` leaves there. The targets are `verify`, `show`, `demo`, `pipe` and `upgrade`; they take turns.
A case is made from the seed and its number alone, so that `--seed S --case N` makes it again. Each process has 10 seconds and 1 GB of
addresses. It must end with a status and an output that docs/COMMANDS.md and docs/HTTP.md know, and where the models beside this folder
read the same bytes, with exactly their answer: the line of `verify`, the lines of `show`, the replies of `demo`, those of `pipe` on a
disk of either version without an archive or the word for which it isn't opened, and the answer of `upgrade`. `pipe` and `upgrade` must also leave the
bytes of the disk that the models leave, and what isn't opened as it was. A case that does otherwise is printed and its input is kept in `found/`;
the script ends with 1 then. At the end it prints how many cases of each target gave which kind of answer.
"""
import argparse
import collections
import pathlib
import random
import re
import resource
import subprocess
import sys
import tempfile
import time

HERE = pathlib.Path(__file__).resolve().parent
sys.path += [str(HERE.parents[1] / "model"), str(HERE.parents[1] / "tests" / "archives")]
import archives
import connections
import disk as disks
import foreign_archives
import foreign_tiles
import read_hostile
import read_script
import reply_hostile
from archives import Maker
from calls import format_disk, upgrade
from crashes import Memory
from disk import Change
from machine import Service
from odd_edits import odd_edit
from reply_random import random_feature, random_request
from reply_stand import PUBLISH, put, request
from tagged import TaggedService
from wire import varint

TARGETS = ["verify", "show", "demo", "pipe", "upgrade"]
SECONDS, ADDRESSES = 10, 2**30
SECTORS = 128
KNOWN_LINE = re.compile(
    r"ok: \d+ tiles, \d+ entries, \d+ contents|short header|bad magic|bad metadata|leaf depth|version: \d+|compressed directories: \d+|"
    r"section: (root|metadata|leaves|tiles)|(bad directory at|order|place|bad tile): \d+|count: (addressed|entries|contents)")
KNOWN_REPLY = re.compile(
    rb"HTTP/1\.1 (200 OK|204 No Content|206 Partial Content|304 Not Modified|400 Bad Request|404 Not Found|405 Method Not Allowed|409 Conflict|"
    rb"412 Precondition Failed|413 Payload Too Large|416 Range Not Satisfiable|417 Expectation Failed|500 Internal Server Error|501 Not Implemented|"
    rb"507 Insufficient Storage)\r\n")


# ---- damage


INTERESTING = [0, 1, 2, 7, 8, 9, 10, 13, 15, 16, 18, 26, 32, 34, 63, 64, 91, 93, 123, 125, 126, 127, 128, 129, 192, 254, 255]
WIDE = [0, 1, 127, 128, 255, 256, 511, 512, 513, 16383, 16384, 2**31 - 1, 2**31, 2**32 - 1, 2**32, 2**63 - 1, 2**63, 2**64 - 1, archives.ALL_IDS]


def once(chance, held, others):
    """Bytes with one piece of damage."""
    at = chance.randrange(len(held) + 1)
    size = min(chance.choice([1, 1, 2, 3, 4, 8, 21, 60, 512]), len(held) - at)
    kind = chance.randrange(11)
    if kind == 0:
        return held[:at]
    if kind == 1:
        return held[:at] + held[at + size :]
    if kind == 2:
        return held[:at] + held[at : at + size] * chance.choice([2, 2, 3, 20, 300]) + held[at + size :]
    if kind == 3:
        return held[:at] + chance.randbytes(size or 1) + held[at + chance.choice([0, size]) :]
    if kind == 4:
        return held[:at] + chance.choice(WIDE).to_bytes(8, "little")[: chance.choice([2, 4, 8])] + held[at + 8 :]
    if kind == 5:
        number = chance.choice(WIDE)
        return held[:at] + varint(number) + held[at + chance.choice([0, 1, 2]) :]
    if kind == 6:
        other = chance.choice(others)
        start = chance.randrange(len(other) + 1)
        return held[:at] + other[start : start + chance.choice([4, 30, 200, 5000])] + held[at + size :]
    if kind == 7 and size:
        return held[:at] + bytes([held[at] ^ 1 << chance.randrange(8)]) + held[at + 1 :]
    return held[:at] + bytes([chance.choice(INTERESTING)]) + held[at + 1 :]


def damaged(chance, held, others, times=(0, 1, 1, 1, 2, 2, 3, 5, 12)):
    """Bytes with so many pieces of damage, of which one number is chosen."""
    for _ in range(chance.choice(times)):
        held = once(chance, held, others)
    return held[:200_000]


# ---- the corpus


def all_archives():
    found = [archive for _, archive, _ in [*foreign_archives.good_archives(), *foreign_archives.bad_archives(), *foreign_archives.shown()]]
    found += [read_hostile.mutual(), read_hostile.ring(), read_hostile.shared_leaf(50), read_hostile.small_leaves(),
              read_hostile.overlapping_contents(256), read_hostile.shared_bytes(1024)]
    found += [archive for _, archive in read_hostile.overlapping()]
    return [archive for archive in found if archive]


def all_tiles():
    found = [*foreign_tiles.TILES.values(), archives.A, archives.BAD, read_hostile.TILE]
    found += [tile for _, tile, _ in script_tiles()]
    return found


def script_tiles():
    yield from read_script.PLACES_OF_FAULTS
    yield from ((what, tile, None) for what, tile in read_script.NO_FAULTS)


def stream(chance):
    """Some requests, one behind the other."""
    return b"".join(one_request(chance) for _ in range(chance.randrange(1, 7)))


def joined(parts):
    """The bytes of a body in parts."""
    return b"".join(part[1] * part[0] if isinstance(part, tuple) else part for part in parts)


BODIES = [joined(parts) for parts in reply_hostile.bodies() if not isinstance(parts, str)]
OTHERS = [held for held in reply_hostile.of_other_protocols() if not isinstance(held, str)]


FIELDS = [b"if-match: *", b'If-None-Match: "1-1-223"', b"if-range: x", b"expect: 100-continue", b"host: y", b"range: bytes=0-6", b"connection: close"]
# Conditions of reads of the archive of a map with the worked point alone.
TAGS = [b"*", b'"1-1-223"', b'W/"1-1-223"', b'"2-2-234"', b'"a", \t"1-1-223" ,', b'"a",,W/"1-1-223"', b"", b", *"]
NAMES = [b"if-match: ", b"IF-NONE-MATCH:", b"If-Match:\t", b"if-none-match: ", b"if-none-match:"]


def with_field(chance, asked):
    """A request with one more field in its head, some of them of HTTP/1.0."""
    first, end, rest = asked.partition(b"\r\n")
    if chance.randrange(4) == 0:
        first = first.replace(b"HTTP/1.1", b"HTTP/1.0")
    return first + end + chance.choice(FIELDS) + end + rest


def read_of_archive(chance):
    """A request for the archive under up to three conditions."""
    asked = request(chance.choice(["GET", "GET", "HEAD"]), "/map.pmtiles", b"", *chance.choice([[], [], ["range: bytes=0-6"]]))
    fields = [chance.choice(NAMES) + chance.choice(TAGS) for _ in range(chance.randrange(4))]
    first, end, rest = asked.partition(b"\r\n")
    return end.join([first, *fields, rest])


def reads_of_archive(chance):
    """A map with the worked point, its archive, and requests for it, some of them behind another publication."""
    made = [put(7), PUBLISH] + [read_of_archive(chance) for _ in range(chance.randrange(1, 7))]
    if chance.randrange(3) == 0:
        made[chance.randrange(2, len(made)):2] = [put(8), PUBLISH]
    return b"".join(made)


def one_request(chance):
    kind = chance.randrange(16)
    if kind == 0:
        return request("PUT", f"/features/{chance.randrange(4)}", chance.choice(BODIES))
    if kind == 1:
        return chance.choice(OTHERS)
    if kind < 4:
        return odd_edit(chance)
    if kind < 6:
        return with_field(chance, random_request(chance))
    if kind == 6:
        return read_of_archive(chance)
    return random_request(chance)


class Corpus:
    """What cases are made of."""

    def __init__(self):
        self.archives, self.tiles = all_archives(), all_tiles()
        chance = random.Random(7)
        self.streams = [stream(chance) for _ in range(60)] + [reads_of_archive(chance) for _ in range(20)] + OTHERS + BODIES[:20]
        self.disks = [disk_after(chance, rounds, version) for version in disks.VERSIONS for rounds in (0, 1, 1, 2, 3, 4)]
        self.disks += [upgraded(chance, rounds) for rounds in (1, 2, 3)]


def some_edit(chance, service):
    """An edit; on a disk of version 2 half of them have several changes."""
    if service.version == disks.FIRST_VERSION or chance.randrange(2):
        service.put(chance.randrange(6), random_feature(chance))
    else:
        service.batch([Change(number, random_feature(chance)) for number in chance.sample(range(6), chance.randrange(1, 4))])


def some_edits(chance, service, rounds):
    """Rounds of edits, with publications between them."""
    for turn in range(rounds):
        for _ in range(chance.randrange(1, 5)):
            some_edit(chance, service)
        if turn % 2 == 0 and rounds > 1:
            service.publish()


def disk_after(chance, rounds, version):
    """The bytes of a disk of a version after some edits."""
    memory = Memory(SECTORS)
    format_disk(memory, version)
    some_edits(chance, Service(memory), rounds)
    return bytes_of(memory)


def upgraded(chance, rounds):
    """The bytes of a disk with records of both versions: edits, the upgrade, and edits."""
    memory = Memory(SECTORS)
    format_disk(memory, disks.FIRST_VERSION)
    some_edits(chance, Service(memory), 1)
    upgrade(memory)
    some_edits(chance, Service(memory), rounds)
    return bytes_of(memory)


def bytes_of(memory):
    return b"".join(memory.read(at) for at in range(memory.count))


# ---- cases


# What is run, and what it must answer and leave of its file, where the models say that.
Case = collections.namedtuple("Case", "words file stream wanted left")


def archive_case(chance, corpus):
    if chance.randrange(2):
        return damaged(chance, chance.choice(corpus.archives), corpus.archives)
    m = Maker()
    entries = [m.tile(k, 1, content) for k in range(3) if (content := damaged(chance, chance.choice(corpus.tiles), corpus.tiles))]
    return m.archive(entries)


def wanted_of_verify(held):
    line = archives.judged(held)
    return (0 if line.startswith("ok: ") else 1), (line + "\n").encode(), b""


def wanted_of_show(held):
    try:
        return 0, "".join(line + "\n" for line in archives.shown(held)).encode(), b""
    except archives.Fault as fault:
        word = {"short header": "Short", "bad magic": "Magic"}.get(str(fault), "Version")
        return 1, b"", f"vtserve: {word}\n".encode()


def replies_of(memory, asked):
    return 0, connections.outcome(TaggedService(memory), asked, 4096).written, b""


def memory_of(held):
    """The whole sectors of bytes."""
    return Memory(len(held) // 512, {at: held[512 * at : 512 * at + 512] for at in range(len(held) // 512)})


def left_of(memory, held):
    """The bytes of a file whose sectors are these now."""
    return bytes_of(memory) + held[512 * memory.count :]


def refusal_of(fault):
    return 1, b"", f"vtserve: {str(fault).partition('(')[0]}\n".encode()


def wanted_of_pipe(held, asked):
    """The answer on a disk and the bytes that it has then. The answer is None where the model doesn't follow what the archive's bytes lead to."""
    try:
        root = disks.read_disk(held).root
    except disks.Fault as fault:
        return refusal_of(fault), held
    if root.archive_len:
        return None, None
    memory = memory_of(held)
    return replies_of(memory, asked), left_of(memory, held)


def wanted_of_upgrade(held):
    """The answer to an upgrade of a disk, and the bytes that it has then."""
    memory = memory_of(held)
    try:
        upgrade(memory)
    except disks.Fault as fault:
        return refusal_of(fault), held
    return (0, b"version 2\n", b""), left_of(memory, held)


def case_of(target, seed, number, corpus):
    """The case of a number: what is run, and what it must answer, if the models say that."""
    chance = random.Random(f"{seed} {number}")
    if target in ("verify", "show"):
        held = archive_case(chance, corpus)
        wanted = wanted_of_verify(held) if target == "verify" else wanted_of_show(held)
        return Case([target], held, b"", wanted, held)
    asked = damaged(chance, chance.choice([stream(chance), chance.choice(corpus.streams)]), corpus.streams, (0, 0, 1, 1, 1, 2, 4))
    if target == "demo":
        memory = Memory(SECTORS)
        format_disk(memory)
        return Case(["demo", str(SECTORS)], None, asked, replies_of(memory, asked), None)
    held = damaged(chance, chance.choice(corpus.disks), corpus.disks, (0, 0, 1, 1, 1, 2, 4))
    if target == "upgrade":
        return Case(["upgrade"], held, b"", *wanted_of_upgrade(held))
    return Case(["pipe"], held, asked, *wanted_of_pipe(held, asked))


# ---- runs


def run(program, case, folder):
    """The status, standard output and standard error of one process, or why it has none; and the bytes that it left of its file."""
    words, path = [program, *case.words], pathlib.Path(folder) / "file"
    if case.file is not None:
        path.write_bytes(case.file)
        words.append(str(path))
    try:
        done = subprocess.run(words, input=case.stream, capture_output=True, timeout=SECONDS)
    except subprocess.TimeoutExpired:
        return "no end after %d seconds" % SECONDS, None
    return (done.returncode, done.stdout, done.stderr), None if case.file is None else path.read_bytes()


def are_replies(written):
    """Whether bytes are whole replies of known forms."""
    while written:
        if not KNOWN_REPLY.match(written):
            return False
        head, _, rest = written.partition(b"\r\n\r\n")
        length = re.search(rb"\r\ncontent-length: (\d+)", head)
        size = int(length[1]) if length else 0
        if rest[:9] == b"HTTP/1.1 ":
            size = 0  # the reply to a HEAD
        written = rest[size:]
    return True


def is_known(target, outcome):
    """Whether an outcome is of a form that the documents know."""
    status, written, told = outcome
    if target == "verify":
        return told == b"" and status in (0, 1) and KNOWN_LINE.fullmatch(written.decode().removesuffix("\n")) is not None
    if target == "show":
        return status == 0 and told == b"" or status == 1 and written == b"" and told in (b"vtserve: Short\n", b"vtserve: Magic\n", b"vtserve: Version\n")
    if status == 1:
        return written == b"" and told in (b"vtserve: NotFormatted\n", b"vtserve: Damaged\n", b"vtserve: File\n")
    return status == 0 and told == b"" and (written == b"version 2\n" if target == "upgrade" else are_replies(written))


def kind_of(target, outcome):
    """A word for an outcome, by which it is counted."""
    status, written, told = outcome
    if status or target in ("show", "upgrade"):
        return (told or written).decode().strip().partition(":")[0] + f" {status}"
    if target == "verify":
        return "ok"
    codes = re.findall(rb"(?:^|\n)HTTP/1\.1 (\d+)", written)
    return codes[-1].decode() if codes else "no reply"


def fault_of(target, case, outcome, left):
    """What is wrong with an outcome and with what it left of the file, or None."""
    if isinstance(outcome, str):
        return outcome
    if outcome[0] < 0:
        return f"signal {-outcome[0]}"
    if not is_known(target, outcome):
        return "an answer of no known form"
    if case.wanted is not None and outcome != case.wanted:
        return "another answer than the models'"
    if case.left is not None and left != case.left:
        return "another file than the models'"
    return None


def keep(target, seed, number, case):
    folder = HERE / "found"
    folder.mkdir(exist_ok=True)
    for name, held in [("file", case.file), ("stream", case.stream)]:
        if held:
            (folder / f"{target}-{seed}-{number}.{name}").write_bytes(held)


def short(outcome):
    return str(outcome)[:300]


def try_case(options, target, number, corpus, folder, counts):
    """Whether a case is answered as it must be."""
    case = case_of(target, options.seed, number, corpus)
    outcome, left = run(options.program, case, folder)
    fault = fault_of(target, case, outcome, left)
    counts[target, kind_of(target, outcome) if fault is None else fault] += 1
    counts[target, "compared with the models"] += case.wanted is not None
    if fault:
        print(f"{target} {number}: {fault}\n    found  {short(outcome)}\n    wanted {short(case.wanted)}", flush=True)
        keep(target, options.seed, number, case)
    return fault is None


def options_of(words):
    parser = argparse.ArgumentParser()
    parser.add_argument("--program", default=str(HERE.parents[1] / "crates" / "vtserve" / "out" / "vtserve"))
    parser.add_argument("--seed", type=int, default=1)
    parser.add_argument("--seconds", type=int, default=60)
    parser.add_argument("--case", type=int)
    parser.add_argument("--only", choices=TARGETS)
    return parser.parse_args(words)


def main(options):
    resource.setrlimit(resource.RLIMIT_AS, (ADDRESSES, ADDRESSES))
    corpus, counts, good = Corpus(), collections.Counter(), True
    end, number = time.monotonic() + options.seconds, options.case or 0
    sources = [f"{len(getattr(corpus, name))} {name}" for name in ("archives", "tiles", "streams", "disks")]
    print(f"seed {options.seed}, {', '.join(sources)}", flush=True)
    with tempfile.TemporaryDirectory() as folder:
        while time.monotonic() < end:
            for target in [options.only] if options.only else TARGETS:
                good &= try_case(options, target, number, corpus, folder, counts)
            number += 1
            if options.case is not None:
                break
    for (target, kind), count in sorted(counts.items()):
        print(f"{target}: {count} {kind}")
    print(f"seed {options.seed}, cases 0 to {number - 1}: {'all as wanted' if good else 'not all as wanted'}")
    return 0 if good else 1


if __name__ == "__main__":
    sys.exit(main(options_of(sys.argv[1:])))
