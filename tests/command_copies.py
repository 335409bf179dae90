"""Cases of `commands.py` about `copy`: files that appear at FILE while it copies. `copies.py` has the others."""
import os
import shutil
import subprocess
import time

from command_cases import PROGRAM, content, disks, failing, published, refusal, remove, system_call_fails, vtserve

# So many bytes are copied that a file can appear meanwhile; fewer under strace, which makes each call slow.
LENGTH, TRACED_LENGTH = 2**25, 2**22
NO_LINKS = ["EPERM", "EOPNOTSUPP", "ENOSYS"]


def large_disk(path, length):
    """Makes a disk whose root names an archive of so many zeros, which `copy` copies as it is. The file is sparse."""
    layout = disks.Layout(length // disks.SECTOR * 3)
    with open(path, "wb") as file:
        file.write(disks.format_sector(layout.sectors) + bytes(disks.SECTOR) + disks.root_sector(disks.Root(1, 0, 0, 0, length)))
        file.truncate(disks.SECTOR * layout.sectors)


def where_a_file_appears(disk, goal, before=()):
    """What `copy -v` does while a file appears at its goal: its outcome, and what the goal and the part have then."""
    child = subprocess.Popen([*before, PROGRAM, "copy", disk, goal, "-v"], stdout=subprocess.PIPE, stderr=subprocess.PIPE)
    while child.poll() is None and not os.path.exists(goal + ".part"):
        time.sleep(0.001)
    with open(goal, "xb") as file:
        file.write(b"mine")
    out, told = child.communicate(timeout=60)
    found = (child.returncode, out, told), content(goal)[0], os.path.exists(goal + ".part")
    remove(goal, goal + ".part")
    return found


def appears(cases, folder):
    """A file that appears at FILE while `copy` runs is never replaced, also on a file system that has no hard links."""
    folder = os.path.join(folder, "copies")
    os.mkdir(folder)
    disk, goal = os.path.join(folder, "large"), os.path.join(folder, "goal")
    large_disk(disk, LENGTH)

    def refused(cause):
        return refusal(b"File: " + goal.encode() + b": " + cause), b"mine", False

    cases.show("copy -v where a file appears meanwhile", where_a_file_appears(disk, goal), refused(b"File exists (os error 17)"))
    cases.show("copy where none does", (vtserve(["copy", disk, goal]), os.path.getsize(goal)), ((0, b"0 edits\n", b""), os.path.getsize(disk)))
    remove(goal)
    if not shutil.which("strace"):
        print("        no strace: no link of a copy is made to fail")
        return
    part, calls = goal + ".part", "link,linkat"
    large_disk(disk, TRACED_LENGTH)
    cases.show("copy -v where a file appears meanwhile and links are EPERM", where_a_file_appears(disk, goal, system_call_fails(calls, part, 1, "EPERM")),
               refused(b"entity already exists"))
    small, _ = published(folder, "small")
    vtserve(["copy", small, goal])
    whole = content(goal)[0]
    for name in NO_LINKS:
        remove(goal)
        cases.show(f"copy where links are {name}", failing(calls, part, 1, ["copy", small, goal], error=name), (0, b"1 edits\n", b""))
        cases.show("it is whole, with nothing beside", (content(goal)[0] == whole, os.path.exists(part)), (True, False))
    remove(goal)
    for call, at, name in [(calls, part, "the link"), ("fsync", folder, "the sync of the folder"), ("unlink,unlinkat", part, "the removal of the part")]:
        cases.show(f"copy where {name} fails", failing(call, at, 1, ["copy", small, goal]), refusal(b"File"))
        left = content(goal)[0] if os.path.exists(goal) else None
        cases.show("it leaves no FILE or the whole copy, with nothing beside", (left in (None, whole), os.path.exists(part)), (True, False))
        remove(goal)
