"""What a file said of each feature when it was last imported into a map: the base of a three-way comparison of the file, the map and
that. Needs no package.

The lines of the file are `{"map":"http://127.0.0.1:8000","edits":812}`, a map with the number of its last edit then, and below it one for each
feature: `["rivers",1001,"5f1c.."]`, with its layer, its id and a hash of what was put; without a hash the file has it no more. Of several lines
of a feature the last one counts. A line is added once the feature is on the map: whoever stops an import loses nothing by it. A line
`{"layer":"rivers","types":{"width":"REAL"}}` has the types of fields of the file that are texts on the map, for `vtmap checkout`.
"""
from __future__ import annotations

import hashlib
import json
from collections.abc import Container, Iterable, Mapping

from .line_file import LineFile


def hash_of(pieces: Mapping[int, bytes]) -> str:
    """The hash of a feature: of the JSON of each of its pieces by its id."""
    text = b"\n".join(b"%d %s" % (number, pieces[number]) for number in sorted(pieces))
    return hashlib.sha256(text).hexdigest()[:32]


class Base:
    """What is known of a map, by its address. `before`: the address that it had then, if that was another one. Without a path nothing is known."""

    def __init__(self, path: str | None, address: str, before: str | None = None) -> None:
        self.address, self.path = address, path
        self.file = LineFile(path, ['{"map":', '{"layer":'], "imports") if path else None
        # The layer and the hash of each feature, the types of the fields of each layer.
        self.features: dict[int, tuple[str, str | None]] = {}
        self.types: dict[str, dict[str, str]] = {}
        self.edits, is_its, is_there = 0, False, False
        try:
            for row in self.file.rows if self.file else ():
                if isinstance(row, dict) and "types" in row:
                    self.types[row["layer"]] = row["types"]
                elif isinstance(row, dict):
                    is_its = row["map"] in (address, before)
                    is_there = is_there or row["map"] == address
                    self.edits = row["edits"] if is_its else self.edits
                elif is_its:
                    layer, number, *found = row
                    self.features[number] = layer, found[0] if found else None
        except (ValueError, TypeError, LookupError) as fault:
            raise OSError(f"{path} is no file of imports: {fault}") from fault
        # What was learned and isn't in the file yet: all of it, if the map had another address.
        self.new = {} if is_there or before is None else dict(self.features)
        self.layers = {layer for layer, _ in self.features.values()}

    def forget(self) -> None:
        """Drops what is known: the map is another one, or an older copy."""
        self.features, self.layers, self.new = {}, set(), {}

    def hash(self, number: int) -> str | None:
        """The hash of a feature; None if it isn't known, or the file didn't have it."""
        return self.features.get(number, (None, None))[1]

    def is_known(self, number: int) -> bool:
        """Whether the file had a feature of this id."""
        return self.hash(number) is not None

    def gone(self, layers: Container[str]) -> list[int]:
        """The ids of the features of these layers that the file had."""
        return [number for number, (layer, found) in self.features.items() if found is not None and layer in layers]

    def keep(self, layer: str, number: int, found: str | None) -> None:
        """Keeps what the file says of a feature; None if it doesn't have it."""
        if self.hash(number) != found:
            self.features[number] = self.new[number] = layer, found

    def keep_types(self, types: dict[str, dict[str, str]]) -> None:
        """Adds the types of the fields of layers to the file, where it has others."""
        rows = [{"layer": layer, "types": fields} for layer, fields in types.items() if self.types.get(layer) != fields]
        self.add(rows)
        self.types.update(types)

    def save(self, edits: int) -> None:
        """Adds what was learned to the file. `edits`: the number of the map's last edit."""
        rows: list[list[object]] = [
            [layer, number] if found is None else [layer, number, found]
            for number, (layer, found) in self.new.items()
        ]
        if rows:
            self.edits = max(self.edits, edits)
            self.add([{"map": self.address, "edits": self.edits}, *rows])
        self.new = {}

    def add(self, rows: Iterable[object]) -> None:
        """Adds lines to the file, if there is one."""
        if self.file:
            self.file.add(rows)

    def end(self, edits: int) -> None:
        """Adds the rest, and has it outlive a crash."""
        self.save(edits)
        if self.file:
            self.file.sync()


def types_in(path: str) -> dict[str, dict[str, str]]:
    """The types of the fields of layers, by a file of imports that another process may use."""
    try:
        with open(path, encoding="utf-8") as file:
            rows = [json.loads(line) for line in file if line.endswith("\n")]
        return {row["layer"]: row["types"] for row in rows if isinstance(row, dict) and "types" in row}
    except (ValueError, LookupError) as fault:
        raise OSError(f"{path} is no file of imports: {fault}") from fault
