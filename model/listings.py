"""What the paths under `/admin/` list: edits since the last publication, and features by pages; and edits that are made under a number. From
docs/HTTP.md. It shares no code with the product."""
import features
from crashes import Failed
from disk import record_text
from machine import Refused, box_of

# Edits are listed until their texts, as the journal has them, have so many bytes, and features until their JSON has so many.
FEED_BYTES = 16384
PAGE_BYTES = 65536
# All features in a box are found at once on a map of so many features at most.
BOX_ENTRIES = 16384


def until(items, size_of, most):
    """The first items, until they have so many bytes together: at least one, if there is one."""
    found, size = [], 0
    for item in items:
        if size >= most:
            break
        found.append(item)
        size += size_of(item)
    return found


# ---- the feed


def asked(change):
    """A change as the body of an edit has it."""
    return {"delete": change.number} if change.feature is None else {"put": change.number, "feature": change.feature}


def edits_from(service, number):
    """The edits from a number on that the journal's ring has, as JSON."""
    if number <= service.forgotten:
        raise Refused("Gone")
    if number > service.last + 1:
        raise Refused("NotFound")
    size_of = lambda record: len(record_text(record))  # noqa: E731
    skipped = number - service.forgotten - 1
    listed = until(service.recorded[skipped:], size_of, FEED_BYTES)
    offset = service.places_of(service.recorded[:skipped])
    try:
        service.find_record(offset)
        for place in range(offset, offset + service.places_of(listed)):
            service.read_place(place)
    except Failed as failed:
        raise Refused("Device") from failed
    edits = [{"changes": [asked(change) for change in record.changes], "edit": number + index} for index, record in enumerate(listed)]
    told = {"digest": service.digest()} if number + len(listed) == service.last + 1 else {}
    return {**told, "edits": edits, "last": service.last}


# ---- pages of features


def page(service, number):
    """The features from a number on, and the number behind them, as JSON."""
    return page_of(service, sorted(other for other in service.map if other >= number))


def box_page(service, left, top, right, bottom, number):
    """Those of them whose boxes meet one, and the number of the next such feature. Only a larger map has pages that end sooner."""
    assert len(service.map) <= BOX_ENTRIES
    boxes = {other: box_of(feature) for other, feature in service.map.items() if other >= number}
    met = lambda across, down: across[0] <= right and left <= across[1] and down[0] <= bottom and top <= down[1]  # noqa: E731
    return page_of(service, sorted(other for other, box in boxes.items() if met(*box)))


def page_of(service, numbers):
    """The first of these features, and the number of the one behind them, as JSON."""
    found = until([{"feature": service.map[other], "id": other} for other in numbers], lambda entry: len(features.compact(entry).encode()), PAGE_BYTES)
    return {"features": found, "next": numbers[len(found)] if len(found) < len(numbers) else None}


# ---- edits under a number


def next_number(service):
    """The number that the next edit gets."""
    if service.last == 2**64 - 1:
        raise Refused("NumbersSpent")
    return service.last + 1


def agrees(service, query):
    """Whether a query names no other digest than that of the map: what comes after `after=` in a part of it is that, to the letter."""
    named = [part.partition(b"=")[2] for part in query.split(b"&") if part.startswith(b"after=")]
    return all(digest == service.digest().encode() for digest in named)
