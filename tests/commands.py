#!/usr/bin/env python3
"""What the commands over files do: `vtserve format`, `pipe`, `serve`, `export`, `copy`, `upgrade`, `show` and `verify`, each case by processes of its own.

    python3 tests/commands.py [PROGRAM]       PROGRAM is crates/vtserve/out/vtserve, which `rt run` leaves there

It prints a line for each case, and ends with 1 if one differs from what is wanted. Files lie in a scratch folder. What a process
that is killed leaves is what it asked the system to write: a crash of the machine is not tried. Where there is no strace, which
lets calls of the system fail, those cases are left out, and a line says so. It takes some two minutes, most of them for the peers
that are slow.
"""
import os
import sys
import tempfile

from begun_requests import begun_requests
from command_archives import large_files, lengths, reads_that_fail, shows
from command_cases import Cases, published
from command_copies import appears
from command_disks import after_a_failed_sync, closed_streams, fails, formats, keeps, refuses, runs_out, stopped_formats
from command_exports import damaged_exports, exports, stopped_exports
from command_files import loses, opens, refuses_unusual_files, small_file_systems
from command_ports import serves, short_of_memory, slow_peers
from command_upgrades import stopped_upgrades, upgrades
from command_words import foreign_paths, told_more, words
from deaf_peers import deaf_peers


def main():
    cases = Cases()
    with tempfile.TemporaryDirectory() as scratch:
        folder = os.path.realpath(scratch)
        disk = formats(cases, folder)
        keeps(cases, folder, disk)
        refuses(cases, folder, disk)
        closed_streams(cases, folder)
        runs_out(cases, folder)
        fails(cases, folder)
        opens(cases, folder)
        loses(cases, folder)
        refuses_unusual_files(cases, folder)
        after_a_failed_sync(cases, folder)
        exports(cases, folder)
        damaged_exports(cases, folder)
        stopped_exports(cases, folder)
        appears(cases, folder)
        stopped_formats(cases, folder)
        lengths(cases, folder)
        reads_that_fail(cases, folder)
        large_files(cases, folder)
        shows(cases, folder)
        upgrades(cases, folder)
        stopped_upgrades(cases, folder)
        serves(cases, folder)
        short_of_memory(cases, folder)
        slow_peers(cases, folder)
        begun_requests(cases, folder)
        deaf_peers(cases, folder)
        words(cases, folder, disk)
        told_more(cases, folder, published(folder, "told")[0])
        small_file_systems(cases, folder)
        foreign_paths(cases, folder, disk)
    return 1 if cases.differ else 0


if __name__ == "__main__":
    sys.exit(main())
