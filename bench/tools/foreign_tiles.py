#!/usr/bin/env python3
"""Prints tiles as other makers write them, as hexadecimal bytes, each under its name: those of `model/foreign_tiles.py`."""

import sys
from pathlib import Path

# This folder has a file of the same name, and stands first in the path.
sys.path[0] = str(Path(__file__).resolve().parents[2] / "model")
from foreign_tiles import TILES

for name, tile in TILES.items():
    print(name)
    print(tile.hex())
