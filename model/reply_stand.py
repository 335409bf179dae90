"""A disk with connections, on which the lines of `reply_script.py` work, and the requests that these lines are made of."""
import connections
import tiles
from calls import format_disk, upgrade
from crashes import FROM, MADE, NONE, NOT_MADE, Faulty, Memory
from disk import FIRST_VERSION, SECTOR, Fault
from features import compact
from machine import Service
from tagged import TaggedService

FORMAT = {13: "\\r", 10: "\\n", 9: "\\t", 92: "\\x5c"}
MAX_TOLD, FRONT = 2000, 300
WORLD = 2**32 - 1
POINT = tiles.feature({"points": [[0, 0]]})
BODY = b'{"layer":"p","minzoom":0,"maxzoom":2,"geometry":{"points":[[0,0]]},"tags":{}}'
A = b"GET /map/0/0/0.hex HTTP/1.1\r\nhost: a\r\n\r\n"
PIECES = "4096,1,2,7,64"


# ---- texts


def text_of(held):
    """Bytes as a script spells them."""
    return "".join(FORMAT.get(byte) or (chr(byte) if 32 <= byte < 127 else f"\\x{byte:02x}") for byte in held)


def told_of(held):
    """Bytes as an answer tells them: of many the first ones, how many there are, and their hash by FNV-1a."""
    if len(held) <= MAX_TOLD:
        return text_of(held)
    found = 0xCBF29CE484222325
    for byte in held:
        found = (found ^ byte) * 0x100000001B3 % 2**64
    return f"{text_of(held[:FRONT])} .. {len(held)} bytes, {found:016x}"


class Often:
    """Bytes that are there so often."""

    def __init__(self, count, held):
        self.count, self.held = count, held


def spelled_parts(parts):
    """The bytes of parts, and how a script spells them."""
    held, text = b"", ""
    for part in parts:
        often = part if isinstance(part, Often) else None
        held += often.held * often.count if often else part
        text += f"\\*{often.count}({text_of(often.held)})" if often else text_of(part)
    return held, text


def spelled(value):
    """The bytes of a value as JSON."""
    return compact(value).encode()


# ---- the script

KINDS = {"": NONE, "from": FROM, "lost": NOT_MADE, "made": MADE}


class Stand:
    """A disk, and the service on it while it is open."""

    def __init__(self):
        self.disk, self.service, self.is_admin, self.start = Memory(1), None, False, None

    def zeros(self, sectors):
        self.disk, self.service = Memory(sectors), None

    def begin(self, sectors):
        """A disk that holds the empty map: `open`, or why there is none."""
        self.zeros(sectors)
        try:
            format_disk(self.disk)
        except Fault as fault:
            return fault.args[0]
        return self.open()

    def begin_first(self, sectors):
        """A disk of version 1 that holds the empty map: `open`, or why there is none; then the disk before it is left as it was."""
        disk = Memory(sectors)
        try:
            format_disk(disk, FIRST_VERSION)
        except Fault as fault:
            return fault.args[0]
        self.disk = disk
        return self.open()

    def upgrade(self):
        """Upgrades the closed disk: `upgraded`, or why it isn't."""
        self.service = None
        try:
            upgrade(self.disk)
        except Fault as fault:
            return fault.args[0]
        return "upgraded"

    def overwrite(self, at, first):
        self.service = None
        self.disk.write(at, bytes([first]).ljust(SECTOR, b"\0"))

    def open(self, kind="", number=0, is_admin=False):
        """Opens the disk, so that calls behind the opening fail: `open`, or why it isn't. The paths under `/admin/` may be served."""
        self.service, self.is_admin = None, is_admin
        counted = Faulty(self.disk)
        try:
            Service(counted)
            self.service = TaggedService(Faulty(self.disk, KINDS[kind], counted.calls + number))
            self.service.start = self.start
        except Fault as fault:
            return fault.args[0]
        return "open"


class Script:
    """Lines, and the answer to each."""

    def __init__(self):
        self.lines, self.answers, self.stand, self.room, self.most_turns = [], [], Stand(), None, None

    def add(self, line, answer):
        self.lines.append(line)
        self.answers.append(answer)

    def say(self, *remarks):
        """Remarks in front of a block."""
        self.add("", "")
        for remark in remarks:
            self.add(f"# {remark}", f"# {remark}")

    def note(self, remark):
        """A remark in front of a line."""
        self.add(f"# {remark}", f"# {remark}")

    def disk(self, sectors):
        self.add(f"disk {sectors}", self.stand.begin(sectors))

    def first(self, sectors):
        self.add(f"first {sectors}", self.stand.begin_first(sectors))

    def upgrade(self):
        self.add("upgrade", self.stand.upgrade())

    def zeros(self, sectors):
        self.stand.zeros(sectors)
        self.add(f"zeros {sectors}", "closed")

    def sector(self, at, first):
        self.stand.overwrite(at, first)
        self.add(f"sector {at} {first}", "closed")

    def again(self, kind="", number=0):
        self.add(f"again {kind} {number}" if kind else "again", self.stand.open(kind, number))

    def admin(self, kind="", number=0):
        self.add(f"admin {kind} {number}" if kind else "admin", self.stand.open(kind, number, True))

    def standby(self):
        """As `admin`, where edits need a standby. What follows of that the blocks say."""
        self.add("standby", self.stand.open(is_admin=True))

    def tags(self, start=None):
        """What is opened from now on has entity tags, of which those of tiles begin with this number, or has none."""
        self.stand.start = start
        self.add("tags" if start is None else f"tags {start}", "tags")

    def writer(self, size=None, room=None, end="fails"):
        self.room = room
        self.add("writer" if size is None else f"writer {size} {room} {end}", "writer")

    def turns(self, most=None):
        self.most_turns = most
        self.add("turns" if most is None else f"turns {most}", "turns")

    def answered(self, held, sizes, is_open):
        """What is told of connections of these bytes."""
        answer, first = "", None
        for size in sizes:
            found = connections.outcome(self.stand.service, held, size, is_open, self.room, self.most_turns, self.stand.is_admin)
            same = first is not None and (found.result, found.written) == (first.result, first.written)
            answer += f" | {size}: " if first else ""
            answer += "same, " if same else f"{found.result}, "
            answer += f"{found.read} read, {found.failed} failed" + ("" if same else f": {told_of(found.written)}")
            first = first or found
        return answer

    def connect(self, sizes, parts, is_open):
        held, text = spelled_parts(parts)
        answer = self.answered(held, [int(size) for size in sizes.split(",")], is_open) if self.stand.service else "closed"
        word = "wait" if is_open else "ask"
        self.add(f"{word} {sizes} {text}" if text else f"{word} {sizes}", answer)

    def ask(self, *parts, sizes="4096"):
        """A connection that ends behind these bytes, in pieces of these sizes."""
        self.connect(sizes, parts, False)

    def wait(self, *parts, sizes="1,7,4096"):
        """A connection that stays open behind these bytes."""
        self.connect(sizes, parts, True)

    def files(self):
        return {"stdin": "\n".join(self.lines) + "\n", "stdout": "\n".join(self.answers) + "\n"}


def request(method, path, body=b"", *fields):
    """A request, with its length where it has a body."""
    lines = [f"{method} {path} HTTP/1.1", "host: x", *fields] + ([f"content-length: {len(body)}"] if body else [])
    return "\r\n".join(lines + ["", ""]).encode() + body


def put(number, feature=None):
    """A PUT of a feature, in the words of its JSON: any order of members will do."""
    return request("PUT", f"/features/{number}", BODY if feature is None else spelled(feature))


def head(first, *fields):
    """A head, whose fields end each in CR LF."""
    return "\r\n".join([first, *fields, "", ""]).encode()


def with_point(script, sectors=256):
    """A disk with the worked point."""
    script.disk(sectors)
    script.ask(put(7))


def long_body(points, more=b""):
    """A body of so many points in one place, of one layer with a name of one byte."""
    front, back = b'{"layer":"p","minzoom":0,"maxzoom":2,"tags":{},"geometry":{"points":[[0,0]', b"]}" + more + b"}"
    return [front, Often(points - 1, b",[0,0]"), back]


def put_parts(number, parts):
    """A PUT of a body in parts."""
    size = len(spelled_parts(parts)[0])
    return [f"PUT /features/{number} HTTP/1.1\r\nhost: x\r\ncontent-length: {size}\r\n\r\n".encode(), *parts]


def tagged(letters, number=7):
    """A PUT of a point with a tag of so many letters: the text of the edit has 30 bytes more."""
    front = b'{"layer":"p","minzoom":0,"maxzoom":2,"geometry":{"points":[[0,0]]},"tags":{"t":"'
    return put_parts(number, [front, Often(letters, b"a"), b'"}}'])


GET_ARCHIVE = request("GET", "/map.pmtiles")
PUBLISH, BEGIN, STEP, CANCEL = (request("POST", "/publish" + name) for name in ("", "/begin", "/step", "/cancel"))


def large_put(number):
    """A PUT of a feature whose tags have 30,000 letters."""
    parts = [b'{"layer":"p","minzoom":0,"maxzoom":0,"geometry":{"points":[[0,0]]},"tags":{"k":0']
    for tag in range(30):
        parts += [f',"k{tag}":"{number}.{tag} '.encode(), Often(1000, b"x"), b'"']
    return put_parts(number, [*parts, b"}}"])
