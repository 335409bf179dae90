"""Cases of `commands.py` about `upgrade`."""
import os
import shutil

from command_cases import Serving, content, disks, failed_at_each_call, killed_at_each_call, refusal, vtserve, write
from command_streams import BODY, GET, edit

# Two disks with the same edits, of which the first program made one.
POINT = {"layer": "p", "minzoom": 0, "maxzoom": 2, "geometry": {"points": [[0, 0]]}, "tags": {}}
RECORDS = [disks.Record(1, [disks.Change(number, POINT)]) for number in (7, 8)]
FIRST, SECOND = (disks.write_disk(64, 0, {}, RECORDS, b"", 0, version=version) for version in disks.VERSIONS)
BATCH_BODY = b'{"changes":[{"delete":8},{"put":9,"feature":%s}]}' % BODY
BATCH = b"POST /edits HTTP/1.1\r\nhost: x\r\ncontent-length: %d\r\n\r\n%s" % (len(BATCH_BODY), BATCH_BODY)
NEEDS_UPGRADE = b"HTTP/1.1 409 Conflict\r\ncontent-type: text/plain\r\ncontent-length: 13\r\n\r\nNeedsUpgrade\n"


def upgrades(cases, folder):
    """A disk of version 1 is served, upgraded, and served again."""
    path = os.path.join(folder, "first")
    write(path, FIRST)
    tile = vtserve(["pipe", path], GET)
    cases.show("a batch on a disk of version 1", vtserve(["pipe", path], BATCH), (0, NEEDS_UPGRADE, b""))
    cases.show("it changes no byte", content(path)[0] == FIRST, True)
    cases.show("upgrade", vtserve(["upgrade", path]), (0, b"version 2\n", b""))
    cases.show("it has the bytes of the model", content(path)[0] == SECOND, True)
    before = content(path)
    cases.show("upgrade once more", vtserve(["upgrade", path]), (0, b"version 2\n", b""))
    cases.show("it changes no byte", content(path)[0] == before[0], True)
    cases.show("the tile is the same", vtserve(["pipe", path], GET), tile)
    cases.show("a batch", vtserve(["pipe", path], BATCH), (0, edit(3), b""))
    lost = os.path.join(folder, "none")
    damaged_root = bytearray(FIRST)
    damaged_root[512] = 0
    rows = [("a missing file", lost, None, b"File"), ("a file of zeros", path, bytes(32768), b"NotFormatted"), ("no bytes", path, b"", b"NotFormatted"),
            ("a disk cut short", path, FIRST[:-512], b"Damaged"), ("version 3", path, FIRST[:8] + b"\3" + FIRST[9:], b"Damaged"),
            ("version 0", path, FIRST[:8] + b"\0" + FIRST[9:], b"Damaged")]
    for name, at, held, fault in rows:
        if held is not None:
            write(path, held)
        cases.show(f"upgrade of {name}", vtserve(["upgrade", at]), refusal(fault))
        cases.show("it is left as it is", os.path.exists(at) and content(at)[0], held is not None and held)
    write(path, bytes(damaged_root))
    cases.show("upgrade of a disk whose root is damaged", vtserve(["upgrade", path]), (0, b"version 2\n", b""))
    cases.show("pipe of it", vtserve(["pipe", path], GET), refusal(b"Damaged"))
    write(path, FIRST)
    cases.show("upgrade where standard output is closed", vtserve(["upgrade", path], preexec_fn=lambda: os.close(1)), (0, b"", b""))
    cases.show("the disk is upgraded", content(path)[0] == SECOND, True)
    write(path, FIRST)
    serving = Serving(path, 1)
    cases.show("upgrade of a disk that is served", vtserve(["upgrade", path]), refusal(b"File"))
    cases.show("the tile of it", serving.ask(GET), tile[1])
    serving.end()


def stopped_upgrades(cases, folder):
    """An upgrade that is killed, or of which a call fails, leaves the disk in either version, with its map."""
    if not shutil.which("strace"):
        print("        no strace: no upgrade is stopped")
        return
    path, seen = os.path.join(folder, "first"), set()

    def left():
        held = content(path)[0]
        write(path, FIRST)
        return {FIRST: 1, SECOND: 2}.get(held, "neither disk")

    def check_killed():
        version = left()
        seen.add(version)
        return None if version in (1, 2) else version

    def check_failed(outcome):
        version = left()
        if outcome == (0, b"version 2\n", b""):
            return None if version == 2 else "not upgraded"
        return "" if outcome == refusal(b"Device") and version in (1, 2) else f"{outcome}, {version}"

    write(path, FIRST)
    count, wrong = killed_at_each_call(["upgrade", path], path, check_killed)
    cases.show(f"upgrade, killed at each of its {count} calls of the system", (wrong, count > 10, seen), (None, True, {1, 2}))
    for call, least in [("pwrite64", 1), ("fdatasync", 2)]:
        count, wrong = failed_at_each_call(call, path, ["upgrade", path], check_failed)
        cases.show(f"upgrade, with each {call} failing: {count}", (wrong, count >= least), (None, True))
