"""A service whose replies have entity tags, and the numbers in the tags of tiles, from docs/HTTP.md. It shares no code with the product.

The number of a tile is that of the newest edit in the cells that the tile and its margin touch. There are cells of three sizes, each 32 across and 32
down, after which they come again, and those of the smallest size once more, 256 across and 256 down. The smallest number counts, of those four of
which the tile touches few columns and rows: 32 at most, and of the last 40. The largest cells count always.
"""
from machine import WORLD_END, Service, box_of

# By how many bits a coordinate is cut for its cell: the world is 32, 1,024 and twice 32,768 cells wide. How many of them across and down are told
# apart, and how many a tile touches at most for which they count.
LEVELS = ((27, 32, 32), (22, 32, 32), (17, 32, 32), (17, 256, 40))


def spans_of(level, box):
    """The columns and the rows of the cells of a box."""
    return [range(first >> level[0], (last >> level[0]) + 1) for first, last in box]


def cells_of(level, box):
    """The cells of a box, each by its column and row among those that are told apart."""
    _, side, _ = level
    across, down = ({number % side for number in span[:side]} for span in spans_of(level, box))
    return {(column, row) for column in across for row in down}


def counts(level, box):
    """Whether a level counts for a tile with this box."""
    return level == LEVELS[0] or all(len(span) <= level[2] for span in spans_of(level, box))


def box_of_tile(zoom, x, y):
    """What a tile shows of the world: itself and its margin."""
    spans = [((4096 * number - 64) << (20 - zoom), ((4096 * number + 4161) << (20 - zoom)) - 1) for number in (x, y)]
    return [(max(0, first), min(WORLD_END - 1, last)) for first, last in spans]


class TaggedService(Service):
    """A service, and the number with which tags of tiles begin, or None where replies have no tags."""

    start, marks = None, ()

    def apply(self, changes):
        boxes = [self.map.get(change.number) for change in changes] + [change.feature for change in changes]
        super().apply(changes)
        self.marks = self.marks or tuple({} for _ in LEVELS)
        for feature in filter(None, boxes):
            for level, numbers in zip(LEVELS, self.marks):
                numbers.update({cell: self.last for cell in cells_of(level, box_of(feature))})

    def number_of(self, place):
        """The number in the tag of a tile."""
        box = box_of_tile(*place)
        found = [max(numbers.get(cell, 0) for cell in cells_of(level, box)) for level, numbers in zip(LEVELS, self.marks) if counts(level, box)]
        return min(found, default=0)
