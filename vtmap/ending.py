"""How a command ends, with a sentence and a status and without a traceback; and files that are replaced at once."""
import os
import sys

from .shown import shown_lines
from .systems import put_in_place


def told(text: str, status: int) -> int:
    """Says why the process ends, and returns its status."""
    print(shown_lines(text), file=sys.stderr)
    return status


def drop(status: int) -> int:
    """Drops what standard output hasn't taken: else the process would end with another status. Returns the status."""
    if sys.stdout:
        os.dup2(os.open(os.devnull, os.O_WRONLY), sys.stdout.fileno())
    return status


def regular(path: str) -> str:
    """A path that is to be written, if it is a regular file or absent. A rename would replace anything else, such as /dev/null, by a file."""
    if os.path.lexists(path) and not os.path.isfile(path):
        raise OSError(f"{path} is no regular file")
    return path


def replaced(path: str, text: str, ending: str = ".part") -> None:
    """Replaces the content of a file, which has what it had until all of it is written."""
    with open(regular(path) + ending, "w", encoding="utf-8", newline="\n") as file:
        file.write(text)
    put_in_place(path + ending, path)
