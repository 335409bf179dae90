"""Files to which lines of JSON are added, of which a stop leaves the whole lines. Needs no package."""
import json
import os
from collections.abc import Iterable

from ..systems import lock


class LineFile:
    """A file whose lines begin with one of these texts. Nobody else can use it meanwhile. `rows` has the values of its lines."""

    def __init__(self, path: str, starts: Iterable[str], what: str) -> None:
        self.path = path
        # Lines end as they do in the file, which an editor may have changed: its bytes are counted.
        self.file = open(path, "a+", encoding="utf-8", newline="\n")
        if not lock(self.file):
            raise OSError(f"another import uses {path}")
        self.file.seek(0)
        try:
            text = self.file.read()
            if not any(text.startswith(start[:len(text)]) for start in starts):
                raise ValueError("it has something else")
            # A line that a killed import left unfinished is of no feature that was sent.
            whole = text[:text.rfind("\n") + 1]
            self.rows = [json.loads(line) for line in whole.split("\n")[:-1]]
        except ValueError as fault:
            raise OSError(f"{path} is no file of {what}: {fault}") from fault
        self.file.truncate(len(whole.encode()))

    def add(self, rows: Iterable) -> None:
        """Adds lines."""
        self.file.write("".join(json.dumps(row, ensure_ascii=False, separators=(",", ":")) + "\n" for row in rows))
        self.file.flush()

    def sync(self) -> None:
        """Has what was added outlive a crash."""
        os.fsync(self.file.fileno())
