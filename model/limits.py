"""The limits of a map that more than one model or script names (docs/HTTP.md). It shares no code with the product."""

# The greatest zoom of a feature and of a tile of the map.
MAX_ZOOM = 19
# The most tiles that a feature may cover on all its zooms together.
MAX_TILES = 262144
