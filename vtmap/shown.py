"""Names that somebody has sent, as a line of a log or a terminal may have them. Needs no package."""
import json
import re

# Control characters that JSON may have as they are.
CONTROLS = re.compile("[\x7f-\x9f\u2028\u2029]")


def shown(name: object) -> str:
    """A name of a map, of a file or of a person: a line feed in it would begin another line, and an escape would be
    obeyed by the terminal. Such a name is shown as Python writes it, in quotes."""
    text = str(name)
    return text if text.isprintable() else repr(text)


def shown_lines(text: object) -> str:
    """A text of several lines whose names may have been forgotten: control characters are shown, but for line feeds."""
    return "\n".join(line if line.isprintable() else repr(line)[1:-1] for line in str(text).split("\n"))


def shown_json(value: object, is_ascii: bool = False) -> str:
    """A value as JSON in one line, in which control characters have their numbers, and all but ASCII if a terminal
    hasn't got more."""
    text = json.dumps(value, ensure_ascii=is_ascii, separators=(",", ":"))
    return CONTROLS.sub(lambda found: f"\\u{ord(found[0]):04x}", text)
