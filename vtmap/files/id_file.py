"""The ids in the map of features that a file names by texts (`HY-0001`, a UUID). Needs no package.

The file is the map's own: keep it with the map. Each line is one id for good, as in `["rivers","HY-0001",1001]`; lines are only added.
"""
from .line_file import LineFile


class IdFile:
    """The ids of the file. New ones are handed out from `first` on, and are kept by `save`. Nobody else can use the file meanwhile."""

    def __init__(self, path: str) -> None:
        self.file = LineFile(path, ['["'], "ids")
        try:
            self.numbers = {(layer, name): number for layer, name, number in self.file.rows}
        except (ValueError, TypeError) as fault:
            raise OSError(f"{path} is no file of ids: {fault}") from fault
        self.first = max(self.numbers.values(), default=0) + 1
        # The layers that the file has, and the new ids.
        self.layers, self.new = {layer for layer, _ in self.numbers}, []

    def begin_at(self, first: int) -> None:
        """Hands out new ids from this one on, and none that the file has."""
        self.first = max(self.first, first)

    def is_known(self, layer: str) -> bool:
        """Whether the file had ids of a layer."""
        return layer in self.layers

    def number(self, layer: str, name: str) -> int:
        """The id of a feature."""
        key = layer, name
        if key not in self.numbers:
            self.numbers[key] = self.first
            self.new.append([layer, name, self.first])
            self.first += 1
        return self.numbers[key]

    def names(self) -> dict[int, str]:
        """The text of each id."""
        return {number: name for (_, name), number in self.numbers.items()}

    def save(self) -> None:
        """Adds the new ids to the file: before anything is sent that has them."""
        self.file.add(self.new)
        self.file.sync()
        self.new = []
