"""Coordinates: points of the map, which are integers from 0 to 2^32 - 1, Web Mercator in metres, longitude and
latitude. Needs no package."""
import math
from collections.abc import Iterable, Sequence

# How wide the map is in its own units, and the earth in Web Mercator, in metres.
WORLD = 2**32
EARTH = 40075016.685578488
HALF = EARTH / 2


def degrees(point: Sequence[float]) -> list[float]:
    """Longitude and latitude of a point of the map: of the middle of its square of 9 mm."""
    x, y = ((part + 0.5) / WORLD for part in point)
    return [x * 360 - 180, math.degrees(math.atan(math.sinh(math.pi * (1 - 2 * y))))]


def metres(point: Sequence[float]) -> tuple[float, float]:
    """A point of the map in Web Mercator: the middle of its square."""
    return ((point[0] + 0.5) / WORLD - 0.5) * EARTH, (0.5 - (point[1] + 0.5) / WORLD) * EARTH


def shares(longitude: float, latitude: float) -> tuple[float, float]:
    """How far east and south of the map's corner a longitude and latitude is, as shares of its width."""
    return (longitude + 180) / 360, 0.5 - math.asinh(math.tan(math.radians(latitude))) / (2 * math.pi)


def at_shares(shares_of_it: Iterable[float]) -> list[int]:
    """The point of the map at these shares of its width."""
    return [min(max(math.floor(share * WORLD), 0), WORLD - 1) for share in shares_of_it]


def world(place: Sequence[float]) -> list[int]:
    """The point of the map of a longitude and latitude."""
    return at_shares(shares(*place[:2]))


def mercator(longitude: float, latitude: float) -> tuple[float, float]:
    """A longitude and latitude in Web Mercator."""
    east, south = shares(longitude, latitude)
    return (east - 0.5) * EARTH, (0.5 - south) * EARTH
