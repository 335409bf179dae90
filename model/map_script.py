"""The part `maps` of the script of `crates/map_runs`: its lines, each with its answer by `map_stand.py`.

A line may stand beside the answer that a worked example, a standard or a table gives it: where the model has another one, no script is
written. Numbers that look random are those of `chance.py`.
"""
import sys

import map_hostile
import map_indexes
from map_caches import cache_lines, grid_lines, kept_lines
from map_features import any_map_lines, area_lines, batch_lines, map_lines, margin_lines, metadata_lines, snapshot_lines
from map_json import changes_lines, checked_lines, json_lines
from map_random import random_lines
from map_stand import Stand
from map_texts import limit_lines, record_lines, text_lines
from map_tiles import cut_lines, reach_lines, tag_lines

CRATE, PART = "map_runs", "maps"
BLOCKS = [
    json_lines, limit_lines, changes_lines, checked_lines, record_lines, text_lines, cut_lines, tag_lines, reach_lines, map_lines, margin_lines,
    any_map_lines, random_lines, batch_lines, kept_lines, grid_lines, cache_lines, snapshot_lines, metadata_lines, area_lines,
    *map_indexes.PARTS, map_hostile.lines]


def files():
    """Standard input, and what must be written."""
    stand, asked, told = Stand(), [], []
    for line in (line for block in BLOCKS for line in block()):
        line, wanted = (line, None) if isinstance(line, str) else line
        answer = stand.answer(line)
        if wanted is not None and answer != wanted:
            sys.exit(f"{line}: {wanted!r} is wanted, and the model says {answer!r}")
        asked.append(line)
        told.append(answer)
    return {"stdin": "\n".join(asked) + "\n", "stdout": "\n".join(told) + "\n"}
