"""Connections to a map: the replies to the bytes that a peer sends, from docs/HTTP.md and RFC 9112. It shares no code with the product.

The bytes of a head are those that RFC 9112 allows, with the freedoms of the parser that the product stands on: a line may end in LF alone,
and a target may have bytes beyond ASCII that are UTF-8.
"""
import re
from collections import namedtuple

import features
import listings
from disk import SECTOR, Change
from limits import MAX_ZOOM
from machine import Refused, as_stored

MAX_HEAD = 8192
MAX_FIELDS = 32
MAX_BODY = 65536
MAX_OF_A_PART = 65536
CR, LF = 13, 10
TOKEN = frozenset(b"!#$%&'*+-.^_`|~0123456789abcdefghijklmnopqrstuvwxyzABCDEFGHIJKLMNOPQRSTUVWXYZ")
TARGET = frozenset(range(0x21, 0x100)) - {0x7F}
VALUE = TARGET | frozenset(b" \t")
PHRASES = {
    200: "OK",
    204: "No Content",
    206: "Partial Content",
    304: "Not Modified",
    400: "Bad Request",
    404: "Not Found",
    405: "Method Not Allowed",
    409: "Conflict",
    410: "Gone",
    412: "Precondition Failed",
    413: "Payload Too Large",
    416: "Range Not Satisfiable",
    417: "Expectation Failed",
    500: "Internal Server Error",
    501: "Not Implemented",
    507: "Insufficient Storage",
}
TEXT, JSON = "text/plain", "application/json"
STATUS_OF = {"Head": 400, "Host": 400, "Coding": 501, "Expect": 417, "Length": 400, "Body": 413, "Short": 400}

# A head: its version as its last digit, its fields as pairs of a name in lower case and a value, and how many bytes it has.
Head = namedtuple("Head", "method target minor fields size")
Request = namedtuple("Request", "method path query fields body close size")


class Fault(Exception):
    """The byte at which bytes become no head, whatever follows: how many bytes it takes to see it."""


class More(Exception):
    """Bytes that a head may begin with."""


class Rejected(Exception):
    """Why bytes begin with no request: the word, whether the reply is a head alone, and how many bytes it takes to see it."""


# ---- heads


class Bytes:
    """Bytes that are taken from the front, one by one."""

    def __init__(self, held):
        self.held, self.at = held, 0
        # Behind how many bytes it is seen that a head has too many fields.
        self.crowded = None

    def take(self):
        if self.at == len(self.held):
            raise More
        self.at += 1
        return self.held[self.at - 1]

    def want(self, allowed):
        """The next byte, which is one of these."""
        byte = self.take()
        if byte not in allowed:
            raise Fault(self.at)
        return byte

    def word(self, allowed, end, least=1):
        """The bytes of a kind, up to a byte that ends them."""
        found = bytearray()
        while (byte := self.take()) in allowed:
            found.append(byte)
        if byte not in end or len(found) < least:
            raise Fault(self.at)
        return bytes(found), byte

    def line_end(self, byte):
        """The rest of the end of a line."""
        if byte == CR:
            self.want({LF})


def field_in(taken, first):
    """A field whose name begins with this byte."""
    if first not in TOKEN:
        raise Fault(taken.at)
    name, _ = taken.word(TOKEN, b":", 0)
    value, end = taken.word(VALUE, {CR, LF}, 0)
    taken.line_end(end)
    return (bytes([first]) + name).lower(), value.strip(b" \t")


def target_in(taken):
    target, _ = taken.word(TARGET, b" ")
    try:
        target.decode()
    except UnicodeDecodeError as error:
        raise Fault(taken.at) from error
    return target


def head_in(taken):
    """The head that bytes begin with."""
    while (byte := taken.take()) in (CR, LF):
        taken.line_end(byte)
    if byte not in TOKEN:
        raise Fault(taken.at)
    method, _ = taken.word(TOKEN, b" ", 0)
    target = target_in(taken)
    for byte_of_version in b"HTTP/1.":
        taken.want({byte_of_version})
    minor = taken.want(b"01") - ord("0")
    taken.line_end(taken.want({CR, LF}))
    fields = []
    while (first := taken.take()) not in (CR, LF):
        if len(fields) == MAX_FIELDS:
            taken.crowded = taken.at
        fields.append(field_in(taken, first))
    taken.line_end(first)
    if len(fields) > MAX_FIELDS:
        raise Fault(taken.at)
    return Head(bytes([byte]) + method, target, minor, fields, taken.at)


# ---- requests


def values(head, name):
    """The values of the fields of this name, of a head or of a request."""
    return [value for field, value in head.fields if field == name]


def body_size(head):
    """How many bytes the body has, or the word of the first rule that the fields break."""
    if head.minor == 1 and len(values(head, b"host")) != 1:
        raise Rejected("Host")
    if values(head, b"transfer-encoding"):
        raise Rejected("Coding")
    if values(head, b"expect"):
        raise Rejected("Expect")
    lengths = values(head, b"content-length")
    if len(lengths) > 1 or lengths and not re.fullmatch(rb"[0-9]+", lengths[0]):
        raise Rejected("Length")
    size = int(lengths[0]) if lengths else 0
    if size > MAX_BODY:
        raise Rejected("Body")
    return size


def only(head, name):
    """The value of the one field of a name, or None."""
    found = values(head, name)
    return found[0] if len(found) == 1 else None


def asks_to_close(head):
    options = [option.strip(b" \t").lower() for value in values(head, b"connection") for option in value.split(b",")]
    return head.minor == 0 or b"close" in options


def request_in(held, first=0):
    """The request that bytes begin with, the first of which come together. Where there is none: why, and behind how many bytes that is
    seen, or None where more may come. Too many fields are seen in the first bytes at once, later only at the head's end or its fault.
    """
    taken = Bytes(held[:MAX_HEAD])
    try:
        return request_of(taken, held)
    except Rejected:
        if taken.crowded is not None and taken.crowded <= first:
            raise Rejected("Head", False, taken.crowded) from None
        raise


def request_of(taken, held):
    try:
        head = head_in(taken)
    except Fault as fault:
        raise Rejected("Head", False, fault.args[0]) from fault
    except More:
        raise Rejected("Head", False, MAX_HEAD if len(held) >= MAX_HEAD else None) from None
    bare = head.method == b"HEAD"
    try:
        size = head.size + body_size(head)
    except Rejected as rejected:
        raise Rejected(rejected.args[0], bare, head.size) from None
    if size > len(held):
        raise Rejected("Short", bare, None)
    path, _, query = head.target.partition(b"?")
    return Request(head.method, path, query, head.fields, held[head.size : size], asks_to_close(head), size)


# ---- replies


class Reply:
    """A reply. `parts` is the content as it is sent; they end early where a read fails."""

    def __init__(self, status, kind=None, content=b"", content_range=None, allow=None, parts=None, length=None, tag=None):
        self.status, self.kind, self.content_range, self.allow, self.tag = status, kind, content_range, allow, tag
        self.parts = [content] if parts is None else parts
        self.length = len(content) if length is None else length

    def front(self, close):
        """Its head."""
        fields = [("content-type", self.kind), ("content-range", self.content_range), ("etag", self.tag), ("allow", self.allow)]
        fields += [("content-length", None if self.status in (204, 304) else self.length), ("connection", "close" if close else None)]
        lines = [f"HTTP/1.1 {self.status} {PHRASES[self.status]}"] + [f"{name}: {value}" for name, value in fields if value is not None]
        return "".join(line + "\r\n" for line in lines + [""]).encode()

    def bytes(self, close, bare):
        return self.front(close) + (b"" if bare else b"".join(self.parts))

    def is_cut(self, bare):
        return not bare and sum(map(len, self.parts)) < self.length


def refusal(status, word, content_range=None, allow=None):
    return Reply(status, TEXT, word.encode() + b"\n", content_range, allow)


def json_reply(value):
    return Reply(200, JSON, features.compact(value).encode())


STATUS_OF_REFUSAL = {"NotFound": 404, "Gone": 410, "NumbersSpent": 500, "Busy": 409, "Idle": 409, "NeedsUpgrade": 409, "Device": 500, "Broken": 500,
                     "JournalFull": 507, "AreaFull": 507, "TooManyTiles": 507}
WORD_OF_LIMIT = {"Long": "E8 Long", "Reach": "E9 Reach"}


def refused_by(refused):
    """The reply that says why the service refused what it was asked."""
    if refused.name == "Limit":
        return refusal(400, WORD_OF_LIMIT[refused.numbers[0]])
    needed = " need {} free {}".format(*refused.numbers) if refused.numbers else ""
    return refusal(STATUS_OF_REFUSAL[refused.name], refused.name + needed)


NUMBER = rb"(0|[1-9][0-9]*)"
ROUTES = [
    (rb"/features/" + NUMBER, "feature", "GET, HEAD, PUT, DELETE"),
    (rb"/edits", "edits", "POST"),
    (rb"/map/" + NUMBER + rb"/" + NUMBER + rb"/" + NUMBER + rb"\.(mvt|hex)", "tile", "GET, HEAD"),
    (rb"/map/metadata", "metadata", "GET, HEAD"),
    (rb"/map\.pmtiles", "archive", "GET, HEAD"),
    (rb"/publish", "publish", "POST"),
    (rb"/publish/begin", "begin", "POST"),
    (rb"/publish/step", "step", "POST"),
    (rb"/publish/cancel", "cancel", "POST"),
]
ADMIN_ROUTES = [
    (rb"/admin/status", "status", "GET, HEAD"),
    (rb"/admin/features/from/" + NUMBER, "from", "GET, HEAD"),
    (rb"/admin/features/page/" + NUMBER, "page", "GET, HEAD"),
    (rb"/admin/features/box/" + rb",".join([NUMBER] * 4) + rb"/from/" + NUMBER, "box", "GET, HEAD"),
    (rb"/admin/edits", "checked", "POST"),
    (rb"/admin/edits/from/" + NUMBER, "feed", "GET, HEAD"),
    (rb"/admin/edits/at/" + NUMBER, "numbered", "POST"),
    (rb"/admin/features/" + NUMBER + rb"/at/" + NUMBER, "numbered feature", "PUT"),
]


def is_in_range(name, numbers):
    if name in ("feature", "from", "page", "feed", "numbered"):
        return numbers[0] < 2**63
    if name == "numbered feature":
        return max(numbers) < 2**63
    if name == "box":
        left, top, right, bottom, number = numbers
        return left <= right < 2**32 and top <= bottom < 2**32 and number < 2**63
    return name != "tile" or numbers[0] <= MAX_ZOOM and max(numbers[1:]) < 2 ** numbers[0]


def route_of(path, is_admin):
    """What a path asks for, its numbers and its ending, and its methods, or None."""
    for pattern, name, allow in ROUTES + (ADMIN_ROUTES if is_admin else []):
        match = re.fullmatch(pattern, path)
        if match:
            words = match.groups()
            numbers = [int(word) for word in words if word.isdigit()]
            return (name, numbers, words[-1] if words else None, allow) if is_in_range(name, numbers) else None
    return None


class Unread(Exception):
    """The word of why a body isn't what is asked for."""


def read_body(body, reads):
    """What is read of a body."""
    try:
        return reads(body.decode())
    except UnicodeDecodeError as error:
        raise Unread("Json") from error
    except features.Fault as fault:
        raise Unread(fault.args[0]) from fault


def batch(service, body):
    return json_reply({"edit": service.batch([as_stored(change) for change in read_body(body, features.body_of)])})


def checked_batch(service, body):
    """A batch that is made if each number has the feature that its author saw."""
    changes, seen = read_body(body, features.checked_of)
    changed = service.first_changed([(change.number, feature) for change, feature in zip(changes, seen)])
    if changed is not None:
        return refusal(409, f"Changed {changed}")
    return json_reply({"edit": service.batch([as_stored(change) for change in changes])})


def numbered_batch(service, number, request):
    """A batch that is made if it gets this number, of the map whose digest the query names, if it names one."""
    changes = read_body(request.body, features.body_of)
    if listings.next_number(service) != number:
        return refusal(409, f"Next {service.last + 1}")
    if not listings.agrees(service, request.query):
        return refusal(409, "Digest")
    return json_reply({"edit": service.batch([as_stored(change) for change in changes])})


def parts_read(service, first, count):
    """The bytes of the archive from one on, in the parts in which they are sent: those of the first 32 sectors, then 65,536 at most each.
    They end where a read fails."""
    at, end = first, first + count
    size = 32 * SECTOR - first % SECTOR
    parts = []
    while at < end:
        try:
            parts.append(service.read(at, min(size, end - at)))
        except Refused:
            break
        at, size = at + size, MAX_OF_A_PART
    return parts


def tag_of(root):
    """The entity tag of the published archive. Each publication has a generation of its own."""
    return f'"{root.generation}-{root.edits}-{root.archive_len}"'


# ---- conditions, which are looked at where replies have entity tags


def condition(request, name):
    """The value of a condition, or None. Several fields of its name are one list (RFC 9110, 5.3)."""
    found = values(request, name)
    return b", ".join(found) if found else None


def names(value, *tags):
    """Whether the value of a condition is an asterisk, or has one of these entity tags in its list (RFC 9110, 13.1.1, 13.1.2, 5.6.1)."""
    return value == b"*" or any(member.strip(b" \t") in tags for member in value.split(b","))


def refused_condition(request, tag):
    """The reply to a GET or HEAD of what has this entity tag, where a condition doesn't hold, or None. The tag is compared strongly for
    `if-match`, weakly for `if-none-match` (RFC 9110, 13.2.2, 8.8.3.2).
    """
    text = tag.encode()
    if_match, if_none_match = condition(request, b"if-match"), condition(request, b"if-none-match")
    if if_match is not None and not names(if_match, text):
        return refusal(412, "Condition")
    if if_none_match is not None and names(if_none_match, text, b"W/" + text):
        return Reply(304, tag=tag)
    return None


def wanted(request):
    """What the conditions of a request want of the feature that it changes: that it is `there`, or `absent`, nothing, or what can't be met. Only an
    asterisk asks for no tag, of which a feature has none."""
    if_match, if_none_match = condition(request, b"if-match"), condition(request, b"if-none-match")
    wants = {(None, None): "free", (b"*", None): "there", (None, b"*"): "absent"}
    return wants.get((if_match, if_none_match), "never")


def meets(wants, is_there):
    return wants == "free" or wants == ("there" if is_there else "absent")


def range_of(request, is_tagged):
    """The value of the one range, or None. A range under a condition counts as none: the whole is right whether the condition holds or not."""
    return None if is_tagged and values(request, b"if-range") else only(request, b"range")


# ---- what is shown


def tile_content(service, at, ending, tag):
    content = service.tile(*at)
    if not content:
        return Reply(204, tag=tag)
    if ending == b"hex":
        return Reply(200, TEXT, content.hex().encode(), tag=tag)
    return Reply(200, "application/vnd.mapbox-vector-tile", content, tag=tag)


def tile_reply(service, at, ending, request):
    """A tile. Where replies have tags its own is a weak one, and who names it gets no tile, and none is made."""
    if service.start is None:
        return tile_content(service, at, ending, None)
    text = f'"{service.start}-{service.number_of(at)}"'
    if_none_match = condition(request, b"if-none-match")
    if if_none_match is not None and names(if_none_match, text.encode(), b"W/" + text.encode()):
        return Reply(304, tag="W/" + text)
    return tile_content(service, at, ending, "W/" + text)


def archive_reply(service, request):
    """The archive or the part of it that a GET asks for. A HEAD reads nothing, and nothing is read where a condition doesn't hold."""
    total, is_tagged = service.root.archive_len, service.start is not None
    if total == 0:
        raise Refused("NotFound")
    tag = tag_of(service.root) if is_tagged else None
    refused = refused_condition(request, tag) if is_tagged else None
    if refused is not None:
        return refused
    kind = "application/octet-stream"
    if request.method == b"HEAD":
        return Reply(200, kind, length=total, tag=tag)
    asked = re.fullmatch(rb"bytes=([0-9]{1,18})-([0-9]{1,18})", range_of(request, is_tagged) or b"")
    first, last = (int(asked[1]), int(asked[2])) if asked else (0, total - 1)
    if asked is None or first > last:
        status, first, last, said = 200, 0, total - 1, None
    elif first >= total:
        return refusal(416, "Range", f"bytes */{total}")
    else:
        last = min(last, total - 1)
        status, said = 206, f"bytes {first}-{last}/{total}"
    parts = parts_read(service, first, last - first + 1)
    if not parts:
        raise Refused("Device")
    return Reply(status, kind, content_range=said, parts=parts, length=last - first + 1, tag=tag)


def on_feature(service, number, request, wants):
    """A feature, or an edit of it. The body is read before what is there is looked at."""
    if request.method in (b"GET", b"HEAD"):
        if number not in service.map:
            raise Refused("NotFound")
        return json_reply(service.map[number])
    if wants == "never":
        return refusal(412, "Condition")
    change = as_stored(Change(number, read_body(request.body, features.feature_of))) if request.method == b"PUT" else None
    if not meets(wants, number in service.map):
        return refusal(412, "Condition")
    return json_reply({"edit": service.put(*change) if change else service.delete(number)})


def numbered_feature(service, number, edit, request, wants):
    """A feature that is set if the edit gets this number. The body is read before the numbers are compared, then the digests, and then what is there is
    looked at."""
    if wants == "never":
        return refusal(412, "Condition")
    change = as_stored(Change(number, read_body(request.body, features.feature_of)))
    if listings.next_number(service) != edit:
        return refusal(409, f"Next {service.last + 1}")
    if not listings.agrees(service, request.query):
        return refusal(409, "Digest")
    if not meets(wants, number in service.map):
        return refusal(412, "Condition")
    return json_reply({"edit": service.put(*change)})


def first_from(service, number):
    found = service.first_from(number)
    if found is None:
        raise Refused("NotFound")
    return json_reply({"feature": service.map[found], "id": found})


def status_reply(service):
    """What the service tells of itself, once its disk was asked to keep what was written."""
    try:
        service.check()
    except Refused:
        pass  # The status tells of it.
    return json_reply(service.status())


def on_publication(service, name):
    """A call of a publication. One that has waited for its tiles, as others were answered, is of the map that was fixed for it."""
    if name == "publish":
        is_late = service.draft or service.whole
        generation, edits, archive = service.finish_whole() if is_late else service.publish()
        return json_reply({"archive": archive, "edits": edits, "generation": generation})
    service.give_up()
    if name == "cancel":
        service.cancel()
        return Reply(204)
    return json_reply({"left": service.begin() if name == "begin" else service.step()})


def reply_to(service, request, is_admin):
    """The reply of a service to a request, where the paths under `/admin/` may be served."""
    route = route_of(request.path, is_admin)
    if route is None:
        return refusal(404, "NotFound")
    name, numbers, ending, allow = route
    if request.method not in allow.encode().split(b", "):
        return refusal(405, "Method", allow=allow)
    wants = "free" if service.start is None else wanted(request)
    if request.method == b"POST" and wants != "free":
        return refusal(412, "Condition")
    try:
        if name == "feature":
            return on_feature(service, numbers[0], request, wants)
        if name == "edits":
            return batch(service, request.body)
        if name == "checked":
            return checked_batch(service, request.body)
        if name == "numbered":
            return numbered_batch(service, numbers[0], request)
        if name == "numbered feature":
            return numbered_feature(service, *numbers, request, wants)
        if name == "page":
            return json_reply(listings.page(service, numbers[0]))
        if name == "box":
            return json_reply(listings.box_page(service, *numbers))
        if name == "feed":
            return json_reply(listings.edits_from(service, numbers[0]))
        if name == "tile":
            return tile_reply(service, tuple(numbers), ending, request)
        if name == "from":
            return first_from(service, numbers[0])
        if name == "status":
            return status_reply(service)
        if name == "metadata":
            return Reply(200, JSON, service.metadata())
        return archive_reply(service, request) if name == "archive" else on_publication(service, name)
    except Unread as unread:
        return refusal(400, unread.args[0])
    except Refused as refused:
        return refused_by(refused)


# ---- a connection

# What it came to, how many bytes were read, how many reads failed, and all that was written.
Outcome = namedtuple("Outcome", "result read failed written")


def served(requests, end):
    return f"Ok(Served {{ requests: {requests}, end: {end} }})"


def broken_off(kind, requests):
    return f"Err({kind} {{ requests: {requests} }})"


class Connection:
    """A connection whose input ends behind these bytes, stays open or isn't read on, and whose output takes so many bytes at most."""

    def __init__(self, service, given, is_open=False, room=None, is_spent=False, is_admin=False, size=1):
        self.service, self.given, self.is_open, self.room, self.is_spent, self.is_admin = service, given, is_open, room, is_spent, is_admin
        self.size = size
        self.at, self.requests, self.written = 0, 0, b""

    def write(self, reply, close, bare):
        """Writes a reply: how the connection is broken off by that, or None."""
        self.written += reply.bytes(close, bare)
        if self.room is not None and len(self.written) > self.room:
            self.written = self.written[: self.room]
            return broken_off("Write", self.requests)
        if reply.is_cut(bare):
            return broken_off("Content", self.requests)
        self.requests += 1
        return None

    def refuse(self, word, bare):
        """Refuses what comes."""
        return self.write(refusal(STATUS_OF[word], word), True, bare) or served(self.requests, "Refused")

    def end(self, word, bare):
        """What the connection comes to where no more bytes come: its result, and how many reads failed."""
        if self.is_spent:
            return served(self.requests, "Turns"), 0
        if self.is_open:
            return broken_off("Read", self.requests), 1
        if self.at == len(self.given):
            return served(self.requests, "Closed"), 0
        return self.refuse(word, bare), 0

    def run(self):
        """What it comes to, behind how many bytes, and how many reads failed."""
        while True:
            try:
                request = request_in(self.given[self.at :], self.size - self.at % self.size)
            except Rejected as rejected:
                word, bare, need = rejected.args
                if need is None:
                    return *self.end(word, bare), len(self.given)
                return self.refuse(word, bare), 0, self.at + need
            self.at += request.size
            broken = self.write(reply_to(self.service, request, self.is_admin), request.close, request.method == b"HEAD")
            if broken or request.close:
                return broken or served(self.requests, "Asked"), 0, self.at


def outcome(service, given, size, is_open=False, room=None, turns=None, is_admin=False):
    """What a connection comes to that is read in pieces of a size, and at most so often. A read that finds the end counts too."""
    is_spent = turns is not None and turns * size <= len(given) + size - 1
    given = given[: turns * size] if is_spent else given
    connection = Connection(service, given, is_open, room, is_spent, is_admin, size)
    result, failed, needed = connection.run()
    return Outcome(result, min(len(given), -(-needed // size) * size), failed, connection.written)
