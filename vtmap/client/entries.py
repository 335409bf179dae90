"""How many of the entries that an archive may have are taken: those of the published one, and of the one in the making. Needs no package."""
from __future__ import annotations

from collections.abc import Iterator
from typing import Any, Optional

from ..faults import NoAnswer
from ..limits import MOST_ENTRIES
from .client import Client
from .refusals import APART

# The share of them at which somebody is told, in percent, and where the archives are that have so many.
MUCH = 80
PUBLISHED, DRAFTED = "that was published last", "in the making"


def published(client: Client) -> Optional[int]:
    """The entries of the published archive, by its header; None where the map has none, or can't be asked for it."""
    try:
        code, header = client.ask("GET", "/map.pmtiles", fields={"Range": "bytes=0-126"})
    except NoAnswer:
        return None
    return int.from_bytes(header[80:88], "little") if code == 206 and len(header) == 127 else None


def drafted(status: dict[str, Any]) -> Optional[int]:
    """The entries so far of the archive that is being made; None where none is, or the server is older and doesn't tell."""
    return (status.get("drafting") or {}).get("entries")


def many(used: Optional[int], is_made: bool, most: int = MUCH) -> Iterator[str]:
    """What to say of an archive, or of one in the making, that has nearly as many entries as one may have."""
    if used is not None and used * 100 >= MOST_ENTRIES * most:
        has = "the archive has" if is_made else "the archive in the making has already"
        yield (f"{has} {used:,} entries, and may have {MOST_ENTRIES:,}: beyond that no publication is made (TooManyTiles), and once the journal is full "
               f"no edit. End features at a smaller zoom, or {APART}")


def there(client: Client, status: dict[str, Any]) -> tuple[int, str]:
    """The most entries of an archive of the map as far as is known, and which archive has them: one in the making may have more than the published one."""
    made = published(client) if status["archive"] else None
    return max((made or 0, PUBLISHED), (drafted(status) or 0, DRAFTED))
