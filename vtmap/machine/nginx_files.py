"""What docs/nginx.conf includes of the maps of this machine, from the folder nginx-maps beside it. Needs no package."""
import math

from .map_file import MapHere

ABOUT = "# Written by `vtmap maps`.\n"
# Each map has the gateway of all maps (`vtmap wfs --maps`).
ONE_GATEWAY = '"~." gateways;\n'


def upstream_of(one: MapHere) -> str:
    """Who has a map, its gateway and its pictures, and the log of its edits."""
    variable = f"$is_edit_of_{one.name.replace('-', '_')}"
    drawer = (
        f"""upstream drawer-{one.name} {{
    server 127.0.0.1:{one.pictures};
}}
"""
        if one.pictures
        else ""
    )
    return (
        drawer
        + f"""upstream vtserve-{one.name} {{
    server 127.0.0.1:{one.port};
    keepalive 4;
    keepalive_timeout 30s;
}}
upstream gateway-{one.name} {{
    server 127.0.0.1:{one.gateway};
}}
map "$is_edit:$map" {variable} {{
    "1:{one.name}" 1;
    default 0;
}}
access_log edits-{one.name}.log edits if={variable};
"""
    )


def rewrite_of(one: MapHere) -> str:
    """Takes the name of a map off a path, once: what is left may begin with the name of another map."""
    return f"if ($map_of_path = {one.name}) {{\n    rewrite ^/{one.name}(?:/(.*))?$ /$1;\n}}\n"


def bounds_of(one: MapHere) -> str:
    """What the TileJSON of a map says of its box: clients ask for no tile outside of it."""
    west, south, east, north = one.bounds
    zoom = max(0, int(math.log2(360 / (east - west))))
    box = ",".join(f"{degrees:g}" for degrees in one.bounds)
    return f"""{one.name} ',"bounds":[{box}],"center":[{(west + east) / 2:g},{(south + north) / 2:g},{zoom}]';\n"""


def files_of(maps: list[MapHere], has_one_gateway: bool = False) -> dict[str, str]:
    """The files, by their names. `has_one_gateway`: whether all maps have one gateway."""
    hosts = [(host, one.name) for one in maps for host in one.hosts]
    return {
        "upstreams.conf": ABOUT + "".join(map(upstream_of, maps)),
        "hosts.conf": ABOUT + "".join(f"{host} {name};\n" for host, name in hosts),
        "paths.conf": ABOUT + "".join(f'"~^/{one.name}(/|\\?|$)" {one.name};\n' for one in maps),
        "rewrites.conf": ABOUT + "".join(map(rewrite_of, maps)),
        "gateways.conf": ABOUT + ONE_GATEWAY * has_one_gateway,
        "bounds.conf": ABOUT + "".join(bounds_of(one) for one in maps if one.bounds),
        "names.conf": ABOUT + "".join(f"server_name {host};\n" for host, _ in hosts),
    }
