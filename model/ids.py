"""Ids of tiles (PMTiles 3, 4.1): zoom by zoom, and in one along a Hilbert curve."""

MAX_ZOOM = 31
# How many ids the zooms 0 to 31 have.
ALL_IDS = sum(4**zoom for zoom in range(MAX_ZOOM + 1))


def is_tile(z, x, y):
    return 0 <= z <= MAX_ZOOM and 0 <= x < 2**z and 0 <= y < 2**z


def turned(side, x, y, right, down):
    """A column and a row of a quarter, as the curve of the whole goes through it."""
    if down == 0:
        if right == 1:
            x, y = side - 1 - x, side - 1 - y
        x, y = y, x
    return x, y


def id_of(z, x, y):
    """The id of a tile, by the usual way from a place to its distance along the curve."""
    place = 0
    side = 2**z // 2
    while side:
        right, down = int(x & side > 0), int(y & side > 0)
        place += side * side * (3 * right ^ down)
        x, y = turned(side, x & side - 1, y & side - 1, right, down)
        side //= 2
    return sum(4**zoom for zoom in range(z)) + place


def tile_of(tile_id):
    """Zoom, column and row of an id, or None past the last."""
    if tile_id >= ALL_IDS:
        return None
    z = 0
    while tile_id >= 4**z:
        tile_id -= 4**z
        z += 1
    x = y = 0
    side = 1
    while side < 2**z:
        right = tile_id // 2 & 1
        down = (tile_id ^ right) & 1
        x, y = turned(side, x, y, right, down)
        x, y = x + side * right, y + side * down
        tile_id //= 4
        side *= 2
    return z, x, y
