"""Pictures of the map for programs that know no vectors: tiles as PNG, by WMTS and by paths."""
