"""Peers of a listener, and what serving them comes to: what each gets of the replies that `connections.py` makes, from docs/HTTP.md.

What a block of `reply_listening.py` knows of its peers, such as which requests are answered in which order, when the last byte comes, and the
lines of the log, it says itself. It shares no code with the product.
"""
import connections
from reply_stand import PUBLISH, told_of

TENTH = 100
END, FLOOD = object(), object()
NO_MEMORY = b"HTTP/1.1 503 Service Unavailable\r\ncontent-type: text/plain\r\ncontent-length: 7\r\nconnection: close\r\n\r\nMemory\n"
NO_STANDBY = b"HTTP/1.1 503 Service Unavailable\r\ncontent-type: text/plain\r\ncontent-length: 8\r\n\r\nStandby\n"


def sent_by(quick, rate, now):
    """How many bytes a peer has taken by then at most."""
    return quick + rate * (now // TENTH)


def time_for(size, quick, rate):
    """When a peer has taken so many bytes."""
    return 0 if size <= quick else TENTH * -(-(size - quick) // rate)


def pace(size, quick, rate):
    """How many bytes of a reply a peer gets that takes so many at once and in each tenth of a second, and when it gets the last one and it is
    over: a reply has a minute, and a second more for each 16,384 bytes that were sent, but never more than a minute at once."""
    now, last, sent, deadline = 0, 0, 0, 60_000
    while True:
        taken = min(size, sent_by(quick, rate, now))
        last = now if taken > sent else last
        deadline = min(now + 60_000, deadline + 1000 * (taken // 16_384 - sent // 16_384))
        sent = taken
        if sent == size:
            return sent, last, last
        if deadline <= now:
            return sent, last, deadline
        now += TENTH


class Fixed:
    """The place of a peer in an order, where the map of its next request is fixed, which is answered later."""

    def __init__(self, place):
        self.place = place


class Turn:
    """The place of a peer in an order, which has a turn: a step is made for its next request, if that is for a whole publication. Where none is left,
    it is answered."""

    def __init__(self, place):
        self.place = place


class Unsent:
    """A request of a peer that is answered, and whose reply isn't sent."""

    def __init__(self, request):
        self.request = request


class Unheard:
    """An edit of a peer that is refused, since no standby is near: nothing is changed."""


class Standby:
    """A request of a peer for the status, which says up to which edit a standby has all, and how many seconds ago one was heard of."""

    def __init__(self, request, confirmed, heard):
        self.request, self.end = request, b',"standby":{"confirmed":%d,"heard":%s}}' % (confirmed, b"null" if heard is None else b"%d" % heard)


class Peer:
    """What a peer does, and what it gets: the requests of it that are answered, how many bytes of the replies, all if that isn't said, the time of
    the last byte, whether the reply for want of memory comes last, and how many of its bytes without end are dropped."""

    def __init__(self, *acts, answered=(), comes=0, takes=None, more=0, words=(), size=None, last=0, dropped=0, refused=False):
        self.acts, self.answered, self.comes, self.takes, self.more, self.words = acts, list(answered), comes, takes, more, words
        self.size, self.last, self.dropped, self.refused = size, last, dropped, refused

    def told(self, replies):
        """What is told of it that gets these replies."""
        held = (replies if self.size is None else replies[: self.size]) + (NO_MEMORY if self.refused else b"")
        dropped = f", {self.dropped} dropped" if self.dropped else ""
        return f"{self.last}{dropped}: {told_of(held)}"


def line_of(at, what, spelled):
    if what is END:
        return f"ends {at}"
    return f"floods {at}" if what is FLOOD else f"sends {at} {spelled(what)}"


def say_peer(script, peer, spelled):
    """The lines of a peer."""
    said = [f"peer {peer.comes}" + (" {} {}".format(*peer.takes) if peer.takes else ""), *peer.words]
    said += [line_of(at, what, spelled) for at, what in peer.acts] + ([f"more {peer.more}"] if peer.more else [])
    for line in said:
        script.add(line, line)


def answer(service, request, is_admin):
    """The bytes of one reply."""
    if isinstance(request, Unheard):
        return NO_STANDBY
    if isinstance(request, Unsent):
        answer(service, request.request, is_admin)
        return b""
    if isinstance(request, Standby):
        head, content = answer(service, request.request, is_admin).split(b"\r\n\r\n")
        more = content[:-1] + request.end
        return head.replace(b"content-length: %d" % len(content), b"content-length: %d" % len(more)) + b"\r\n\r\n" + more
    return connections.outcome(service, request, 4096, is_admin=is_admin).written


def replies_in(stand, peers, order):
    """What is replied to each peer, whose requests are answered in an order: the places of peers, each for its next request. The map of a whole
    publication may be fixed before others are answered, and its steps be made between them."""
    left, replies = [list(peer.answered) for peer in peers], [b""] * len(peers)
    for place in order:
        if isinstance(place, Fixed):
            stand.service.prepare()
            continue
        if isinstance(place, Turn):
            place = place.place
            if left[place][:1] != [PUBLISH] or stand.service.prepare_whole():
                continue
        replies[place] += answer(stand.service, left[place].pop(0), stand.is_admin)
    if any(left):
        raise ValueError("a request that is answered has no place in the order")
    return replies


def listen(script, *peers, log="", time=0, order=None, failed=False, accepts=(), word="", spelled=None):
    """Peers that a listener serves. Without an order the first one's requests are answered first."""
    for count, error in accepts:
        script.add(f"accepts {count} {error}", f"accepts {count} {error}")
    for peer in peers:
        say_peer(script, peer, spelled)
    all_peers = [peer for peer in peers for _ in range(1 + peer.more)]
    order = [place for place, peer in enumerate(all_peers) for _ in peer.answered] if order is None else order
    told, before = f"{'failed' if failed else 'served'}, {time}: {told_of(log.encode())}", ""
    for peer, replies in zip(all_peers, replies_in(script.stand, all_peers, order)):
        here = peer.told(replies)
        told, before = told + (" | same" if here == before else f" | {here}"), here
    script.add(f"serve {word}" if word else "serve", told)


def logged(*ends):
    """The lines of a log: the number of each connection, how many requests it had, and its end."""
    return "".join(f"connection {number}: {requests} requests, {end}\n" for number, requests, end in ends)
