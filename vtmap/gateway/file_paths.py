"""HTTP for photos and files: what is sent is kept by its content's hash, and sent back as what it is. Needs no
package."""
from __future__ import annotations

import json
import os
import re
from typing import Any

from ..faults import Refused
from ..files.attachments import GIVEN, GIVEN_NAME, KINDS, MOST_BYTES, NAME, PATH, Attachments, Full, Taken, Wrong
from ..shown import shown

FILES = "/" + PATH
OF_GIVEN = f"{FILES}{GIVEN}/"
TEXT, JSON = "text/plain; charset=utf-8", "application/json"
# For how many seconds a browser keeps a file: its content never changes.
FOREVER = 365 * 24 * 3600
NONE = "the gateway keeps no files: start it with --files FOLDER"
# Addresses of files in the texts of a Transaction, and paths of files in those of a reply.
SENT = re.compile(rf">\s*https?://[^<>\s\"]{{1,500}}?/{PATH}({GIVEN}/{GIVEN_NAME.pattern}|{NAME.pattern})\s*<".encode())
TOLD = re.compile(rf">{PATH}({NAME.pattern})<")


def by_paths(body: bytes, files: Attachments) -> bytes:
    """A Transaction that names files by their paths, where it names them by addresses: QGIS's widget keeps the address
    that it has sent a file to."""

    def path(found: Any) -> bytes:
        name = found[1].decode()
        own = files.given(name[len(GIVEN) + 1 :]) if name.startswith(GIVEN + "/") else name if files.has(name) else None
        return f">{PATH}{own}<".encode() if own else found[0]

    return SENT.sub(path, body)


def by_addresses(text: str, address: str) -> str:
    """A reply to a GIS that names files by their addresses, which QGIS's widget shows."""
    return TOLD.sub(lambda found: f">{address}{PATH}{found[1]}<", text)


def answer(handler: Any, files: Attachments | None, path: str, safety: list[tuple[str, str]]) -> None:
    """Sends a file."""
    name = path[len(FILES) :]
    if files is not None and path.startswith(OF_GIVEN) and GIVEN_NAME.fullmatch(path[len(OF_GIVEN) :]):
        name = files.given(path[len(OF_GIVEN) :]) or ""
    if files is None or not NAME.fullmatch(name) or not files.has(name):
        handler.reply(404, (NONE if files is None else "NotFound").encode(), TEXT)
        return
    end = name.rpartition(".")[2]
    tag = f'"{name}"'
    fields = [
        ("ETag", tag),
        ("Cache-Control", f"private, max-age={FOREVER}, immutable"),
        *safety,
        ("Cross-Origin-Resource-Policy", "same-origin"),
    ]
    if tag in handler.headers.get("if-none-match", ""):
        handler.write(304, b"", fields)
        return
    with open(files.path(name), "rb") as file:
        length = os.fstat(file.fileno()).st_size
        # A browser shows no PDF that may run nothing: it is kept as a file.
        about = [
            ("Content-Type", KINDS[end]),
            ("Content-Length", str(length)),
            ("Content-Disposition", "attachment" if end == "pdf" else "inline"),
        ]
        handler.write_file(200, file, length, [*about, *fields])


def take(handler: Any, files: Attachments | None, path: str) -> None:
    """Keeps a file that is sent: by POST to the folder, or by PUT to a name that the sender chooses."""
    given, length = path[len(OF_GIVEN) :] if path.startswith(OF_GIVEN) else None, handler.length()
    if files is None:
        handler.refuse(404, NONE)
    elif given is not None and not GIVEN_NAME.fullmatch(given):
        handler.refuse(400, "a name has up to 64 letters, digits, - and _, and an end such as .jpg")
    elif length is None:
        handler.refuse(411, "one Content-Length is needed")
    elif length > MOST_BYTES:
        handler.refuse(413, f"a file has at most {MOST_BYTES >> 20} MiB")
    elif not handler.server.bodies.take(length):
        handler.refuse(503, "others are sending very much just now")
    else:
        try:
            handler.post(lambda body: keep(handler, files, given, body), length)
        finally:
            handler.server.bodies.take(-length)


def keep(handler: Any, files: Attachments, given: str | None, content: bytes) -> None:
    """Keeps a file, and says where."""
    try:
        name = files.put(content) if given is None else files.put_as(given, content)
    except Refused as fault:
        status = {Wrong: 415, Taken: 409, Full: 507}[type(fault)]
        handler.reply(status, str(fault).encode(), TEXT)
        return
    except OSError as fault:
        handler.reply(500, f"the file can't be kept: {fault.strerror}".encode(), TEXT)
        return
    handler.map.live.tell(f"file: {shown(handler.person())}: {PATH}{name}, {len(content):,} bytes")
    handler.reply(201, json.dumps({"path": PATH + name}).encode(), JSON, [("Location", handler.address(FILES) + name)])
