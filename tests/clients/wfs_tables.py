"""The part `wfs-tables` of run.py: the layers that `vtmap wfs` shows a GIS. One that has lost its last feature keeps
its columns and zooms, over a restart too, and most of a layer is deleted only by who says so twice."""
import os
import re

from .gateways import XML, Gateway, Gis, edits_at, feature_at, map_at, point, text_of
from .pages import town
from .stand import Cases, Server, curl


def wfs_tables(cases: Cases, folder: str) -> None:
    """All of it."""
    folder = os.path.join(folder, "wfs-tables")
    os.mkdir(folder)
    with Server(folder, "town", sectors=16384) as server:
        town(folder, server.url)
        state = os.path.join(folder, "wfs.state")
        with Gateway(folder, server.url, "--state", state) as gateway:
            doubted(cases, server, gateway)
            emptied(cases, server, gateway)
        with Gateway(folder, server.url, "--state", state) as gateway:
            filled(cases, server, gateway, "after a restart")
        with Gateway(folder, server.url) as gateway:
            cases.show(
                "wfs-tables: what has features is shown without a state", "place.points" in layers(gateway), True
            )


def layers(gateway):
    """The names of the layers."""
    return re.findall("<wfs:Name>v:(.*?)</wfs:Name>", text_of(f"{gateway.url}/wfs?REQUEST=GetCapabilities"))


def columns(gis):
    """The names and types of the columns of a layer."""
    return re.findall('element name="([^"]*)" type="([^"]*)" minOccurs', gis.get("DescribeFeatureType"))


def doubted(cases, server, gateway):
    """All buildings are selected and deleted by mistake, or not."""
    gis, edits = Gis(gateway, "building.areas"), edits_at(server.url)
    gis.rows()
    every = [gis.delete(number) for number in gis.fids]
    refused = "nothing of this was saved: it deletes 318 of the 318 features of building (areas). "
    again = "If that is meant, save once more within ten minutes; if not, undo it (Ctrl+Z)"
    cases.show("wfs-tables: all buildings are deleted", gis.save(*every), refused + again)
    cases.show("wfs-tables: nothing is made of it", edits_at(server.url), edits)
    most = every[:200]
    told = refused.replace("318 of", "200 of") + again
    cases.show(
        "wfs-tables: another selection is asked for anew", (gis.save(*most), gis.save(*every)), (told, refused + again)
    )
    other = Gis(gateway, "building.areas")
    other.rows()
    cases.show("wfs-tables: nobody says it for another one", other.save(*every), refused + again)
    cases.show("wfs-tables: a few are deleted as before", other.save(*every[:20]), "SUCCESS")
    half = every[20:169]
    cases.show("wfs-tables: so is half of what is left", (len(half), other.save(*half)), (149, "SUCCESS"))
    body = (
        '<Transaction xmlns="http://www.opengis.net/wfs" xmlns:ogc="http://www.opengis.net/ogc"'
        f' version="1.0.0">{"".join(every[169:])}</Transaction>'
    )
    told = curl(f"{gateway.url}/wfs", "-H", XML, body=body)[2].decode()
    cases.show(
        "wfs-tables: who has no session is told another way",
        "send it to an address that ends with ?delete-many=true" in told,
        True,
    )
    cases.show(
        "wfs-tables: and nothing is made of it",
        len([1 for one in map_at(server.url).values() if one["layer"] == "building"]),
        149,
    )
    told = curl(f"{gateway.url}/wfs?delete-many=true", "-H", XML, body=body)[2].decode()
    cases.show("wfs-tables: which deletes them", ("SUCCESS" in told, "building.areas" in layers(gateway)), (True, True))


def emptied(cases, server, gateway):
    """A layer whose last feature is deleted stays, and takes features again. So it is if a script does it."""
    building = Gis(gateway, "building.areas")
    wanted = ["geom", "feature_id", "floors", "house", "minzoom", "maxzoom"]
    cases.show(
        "wfs-tables: a layer without features keeps its columns",
        ([name for name, _ in columns(building)], building.rows()),
        (wanted, {}),
    )
    listed = text_of(f"{gateway.url}/ogc/collections/building.areas/items")
    cases.show("wfs-tables: it is an empty collection", '"features":[]' in listed, True)
    places = [number for number, one in map_at(server.url).items() if one["layer"] == "place"]
    for number in places:
        curl(f"{server.url}/features/{number}", "-X", "DELETE")
    cases.show(
        "wfs-tables: by HTTP too",
        [name for name, _ in columns(Gis(gateway, "place.points"))],
        ["geom", "feature_id", "name", "minzoom", "maxzoom"],
    )
    filled(cases, server, gateway, "at once")
    for number, one in map_at(server.url).items():
        if one["layer"] == "place":
            curl(f"{server.url}/features/{number}", "-X", "DELETE")
    text_of(f"{gateway.url}/wfs?REQUEST=GetCapabilities")


def filled(cases, server, gateway, name):
    """A feature is added to the layer that lost all of its own: it has the zooms of those."""
    gis = Gis(gateway, "place.points")
    told = gis.save(gis.insert(point(835001, 7265001), name="Well"))
    made = feature_at(server.url, int(told.split()[1].split(".")[2])) if told.startswith("SUCCESS") else told
    found = made if isinstance(made, str) else (made["layer"], made["tags"], made["minzoom"], made["maxzoom"])
    cases.show(f"wfs-tables: an emptied layer takes features {name}", found, ("place", {"name": "Well"}, 10, 16))
