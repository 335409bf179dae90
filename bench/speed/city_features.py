"""The features of the city of city/features.hpp and of city_features.rt.txt, as the JSON bodies of the HTTP interface say them, for
the benchmarks that put them by requests.
"""

CITY_TILES = 19
FEATURES = 25000


def name_of(number):
    return f"feature {10000 + number % 90000}"


def corner_of(number):
    """The upper left corner of a feature: 37 are beside each other in a tile of zoom 12."""
    tile, cell = number % CITY_TILES, number // CITY_TILES
    return (2000 + tile % 5) * 2**20 + 49152 + cell % 37 * 26000, (1300 + tile // 5) * 2**20 + 49152 + cell // 37 % 37 * 26000


def beside(corner, points):
    """These points, in units of a tile of zoom 12 from a corner."""
    return [[corner[0] + x * 256, corner[1] + y * 256] for x, y in points]


def feature(layer, geometry, tags):
    return {"layer": layer, "minzoom": 0, "maxzoom": 16, "geometry": geometry, "tags": tags}


def house(number):
    ring = beside(corner_of(number), [(0, 0), (60, 0), (60, 40), (30, 40), (30, 70), (0, 70)])
    return feature("building", {"polygons": [[ring]]}, {"class": "residential", "height": number % 30, "name": name_of(number)})


def street(number):
    line = beside(corner_of(number), [(at * 2, (at * 7 + number) % 90) for at in range(40)])
    return feature("transportation", {"lines": [line]}, {"class": "street", "lanes": number % 4, "name": name_of(number)})


def shop(number):
    return feature("poi", {"points": beside(corner_of(number), [(45, 45)])}, {"class": "shop", "name": name_of(number)})


def city_feature(number):
    """Six houses to three streets to one shop."""
    turn = number // CITY_TILES % 10
    return shop(number) if turn == 0 else street(number) if turn < 4 else house(number)


def tiles_at(zoom):
    """The tiles of a zoom from 12 on that the city covers, row by row."""
    parts = range(2 ** (zoom - 12))
    corners = [((2000 + tile % 5) * len(parts), (1300 + tile // 5) * len(parts)) for tile in range(CITY_TILES)]
    return [(left + column, top + row) for left, top in corners for row in parts for column in parts]
