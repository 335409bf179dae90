"""`vtmap files`: which photos and files the map names, and which nobody does. Needs no package."""
from __future__ import annotations

import argparse
import os
import time

from ..client.client import Client
from ..faults import Refused
from ..files.attachments import PATH, Attachments, Use
from ..shown import shown

ABOUT = {"files": """Lists what is wrong with the photos and files of features, which `vtmap wfs --files FOLDER` keeps.

    vtmap files FOLDER
    vtmap files FOLDER --damaged

An orphan is a file that no feature names: it was sent and not saved, or its feature was deleted or got another one. Nothing
is deleted: an edit that is taken back names it again, and so may a backup. What is missing is named by a feature and isn't
in the folder: put it back from a backup (`vtmap load --files`). --damaged reads all files, and lists those whose content
isn't what their names say. The server needs --admin.

It ends with 1 if a file is missing or damaged; orphans are no fault."""}
# How many features that name one missing file are listed.
MOST = 3


def options(parser: argparse.ArgumentParser, _: str) -> None:
    """The words of the command."""
    parser.add_argument("folder", metavar="FOLDER", help="the folder of the files")
    parser.add_argument("--damaged", action="store_true", help="read all files, and list those that are damaged")


def missing(files: Attachments, use: Use) -> list[str]:
    """A line for each file that features name and that isn't there."""
    found = []
    for name, places in sorted(use.named.items()):
        if not files.has(name):
            told = [f"feature {number} ({shown(tag)})" for number, tag in places[:MOST]]
            found.append(f"missing: {PATH}{name}: {', '.join(told)}" + (f" and {len(places) - MOST:,} more" if len(places) > MOST else ""))
    return found


def orphan(files: Attachments, name: str) -> str:
    """The line of a file that no feature names."""
    about = os.stat(files.path(name))
    return f"orphan: {files.path(name)}: {about.st_size:,} bytes, {time.strftime('%Y-%m-%d', time.localtime(about.st_mtime))}"


def work(words: argparse.Namespace) -> int:
    """Lists."""
    if not os.path.isdir(words.folder):
        raise Refused(f"{words.folder} is no folder")
    files, client = Attachments(words.folder), Client(words.url)
    # Files first: one that is sent meanwhile, and named, is no orphan.
    names = list(files.names())
    if client.status() is None:
        raise Refused("the server doesn't list its features: start it with --admin")
    use = Use.of(client.features())
    lost = missing(files, use)
    damaged = [f"damaged: {files.path(name)}" for name in names if not files.is_whole(name)] if words.damaged else []
    orphans = [orphan(files, name) for name in names if name not in use.named]
    for line in [*lost, *damaged, *orphans]:
        print(line)
    told = f", {len(damaged)} damaged" if words.damaged else ""
    print(f"{len(names):,} files, {len(orphans):,} orphans, {len(lost):,} missing{told}")
    return 1 if lost or damaged else 0
