"""The schema of a map as clients get it: of the server, or of a file. Needs no package."""
from __future__ import annotations

from ..faults import Refused
from ..files.map_schema import SchemaFile, Schema, parsed
from .client import Client, word

# Where nginx has it of the gateway (docs/nginx.conf), beside the page; and where the gateway takes more.
SERVED, ADDED = "/pages/schema.json", "/wfs/schema.json"


def schema_at(client: Client, path: str | None = None) -> Schema:
    """The schema of a file, or else that which the server has. Without a gateway, or a schema of it, it names no layer."""
    if path is not None:
        return SchemaFile(path).read()
    status, content = client.ask("GET", SERVED)
    return parsed(content.decode(errors="replace")) if status == 200 and content.lstrip().startswith(b"{") else Schema()


def added_at(client: Client, more: Schema) -> Schema:
    """The schema of a server, after it got what another one has more."""
    status, content = client.ask("POST", ADDED, more.text().encode())
    if status == 200:
        return parsed(content.decode())
    if status == 400:
        raise Refused(content.decode(errors="replace"))
    if status in (404, 405, 501, 502):
        raise Refused(f"{client.address} takes no schema ({status} {word(content)}): it needs `vtmap wfs --schema FILE` behind nginx; --file changes a file")
    client.stop_at(status, content)
    raise Refused(f"{status} {word(content)}")
