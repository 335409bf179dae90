"""Requests and replies of the cases of `commands.py`."""

BODY = b'{"layer":"p","minzoom":0,"maxzoom":2,"geometry":{"points":[[0,0]]},"tags":{}}'
TILE = b"1a130a017012090807180122030900002880207802"
GET = b"GET /map/0/0/0.hex HTTP/1.1\r\nhost: x\r\n\r\n"
DELETE = b"DELETE /features/7 HTTP/1.1\r\nhost: x\r\n\r\n"
JSON, TEXT = b"application/json", b"text/plain"
EMPTY = b"HTTP/1.1 204 No Content\r\n\r\n"


def put(number):
    """A request that gives a number the point at the corner of the world."""
    return b"PUT /features/%d HTTP/1.1\r\nhost: x\r\ncontent-length: %d\r\n\r\n%s" % (number, len(BODY), BODY)


def reply(kind, content):
    """A reply of status 200."""
    return b"HTTP/1.1 200 OK\r\ncontent-type: %s\r\ncontent-length: %d\r\n\r\n%s" % (kind, len(content), content)


def edit(number):
    """The reply to an edit that was made."""
    return reply(JSON, b'{"edit":%d}' % number)


def error(word):
    """A reply of status 500."""
    return b"HTTP/1.1 500 Internal Server Error\r\ncontent-type: text/plain\r\ncontent-length: %d\r\n\r\n%s\n" % (len(word) + 1, word)
