"""What the blocks of `map_script.py` share: features, and the lines that put them into a map."""
import json

LAST = 2**32 - 1
# How many coordinates of the world make one of a tile at zoom 0.
K = 2**20


def said(feature):
    return json.dumps(feature, separators=(",", ":"), ensure_ascii=False)


def drawn(kind, lists, minzoom=0, maxzoom=16, layer="l"):
    return {"layer": layer, "minzoom": minzoom, "maxzoom": maxzoom, "geometry": {kind: lists}, "tags": {}}


def put(number, feature):
    return f"put {number} {said(feature)}"
