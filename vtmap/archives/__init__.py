"""Archives of tiles (PMTiles 3): read entry by entry, joined, and written as docs/FORMATS.md has them. No package."""
