"""The part `standards` of run.py: cases of the test suites of WFS 2.0 (OGC 09-025r2, annex A) and OGC API Features
(17-069, 18-058), which Debian doesn't have, tried by hand, and by GDAL where it asks so. The comment of a case names
the requirement."""
import csv
import io
import json
import os
import re
import subprocess
import xml.etree.ElementTree as tree

from .gateways import XML, Gateway, feature_at, text_of
from .pages import town
from .stand import SYSTEM_PYTHON, Cases, Server, curl, field, status_of

WFS, FES, OWS = "http://www.opengis.net/wfs/2.0", "http://www.opengis.net/fes/2.0", "http://www.opengis.net/ows/1.1"
BY_ID = "urn:ogc:def:query:OGC-WFS::GetFeatureById"
EPSG = "http://www.opengis.net/def/crs/EPSG/0/"
CRS84 = "http://www.opengis.net/def/crs/OGC/1.3/CRS84"
HEAD = f'xmlns="{WFS}" xmlns:fes="{FES}" xmlns:v="urn:vtserve" service="WFS" version="2.0.0"'
LIMIT = 60


def standards(cases: Cases, folder: str) -> None:
    """All of it."""
    folder = os.path.join(folder, "standards")
    os.mkdir(folder)
    with Server(folder, "town", sectors=16384) as server:
        town(folder, server.url)
        with Gateway(folder, server.url, "--crs", "EPSG:31467") as gateway, Gateway(
            folder, server.url, "--cors"
        ) as public:
            desk = Standards(cases, folder, server, gateway.url)
            desk.versions()
            desk.stored_queries()
            desk.by_xml()
            desk.columns_and_order()
            desk.wrong()
            desk.by_gdal()
            desk.methods(public.url)
            desk.systems()
            desk.downloads()


class Standards:
    """A gateway, as a test suite asks it."""

    def __init__(self, cases, folder, server, url):
        self.cases, self.folder, self.server, self.url = cases, folder, server, url

    def show(self, name, found, wanted):
        self.cases.show(f"standards: {name}", found, wanted)

    # ---- WFS

    def root(self, query, path="/wfs"):
        """The root of the reply to a request by GET."""
        return tree.fromstring(text_of(f"{self.url}{path}?{query}"))

    def posted(self, body):
        """The root of the reply to a request by POST."""
        return tree.fromstring(curl(f"{self.url}/wfs", "-H", XML, body=body)[2])

    def fault(self, root):
        """The code and the locator of an exception, and whether it has a text."""
        (found,) = root
        return found.get("exceptionCode"), found.get("locator"), bool("".join(found.itertext()).strip())

    def names(self, root):
        """The names of the features of a reply."""
        return [one.findtext("{urn:vtserve}name") for one in root.iter("{urn:vtserve}place.points")]

    def versions(self):
        # 6.2.1, and OGC 06-121r3, 7.3.2: the first version of the client's that the server speaks; none of them is a
        # fault.
        for query, wanted in [
            ("", "2.0.0"),
            ("&ACCEPTVERSIONS=1.1.0,2.0.0", "1.1.0"),
            ("&ACCEPTVERSIONS=9.9.9,2.0.0,1.1.0", "2.0.0"),
            ("&ACCEPTVERSIONS=1.0.0,1.1.0", "1.1.0"),
            ("&VERSION=1.1.0", "1.1.0"),
            # OGC 04-094, 13.4.2: one version alone stands for the greatest one not above it, and for the least one.
            ("&VERSION=2.0.2", "2.0.0"),
            ("&VERSION=1.0.0", "1.1.0"),
            ("&VERSION=1.5.0", "1.1.0"),
        ]:
            self.show(
                f"GetCapabilities{query}",
                self.root(f"SERVICE=WFS&REQUEST=GetCapabilities{query}").get("version"),
                wanted,
            )
        found = self.root("SERVICE=WFS&REQUEST=GetCapabilities&ACCEPTVERSIONS=7.0.0,0.1.0")
        self.show(
            "none of the client's versions is spoken",
            self.fault(found),
            ("VersionNegotiationFailed", "AcceptVersions", True),
        )
        for query, wanted in [
            (
                "SERVICE=WFS&REQUEST=GetFeature&VERSION=1.0.0&TYPENAME=v:place.points",
                ("InvalidParameterValue", "version", True),
            ),
            ("SERVICE=WFS&REQUEST=GetCapabilities&VERSION=x", ("InvalidParameterValue", "version", True)),
            ("SERVICE=WFS&VERSION=2.0.0", ("MissingParameterValue", "request", True)),
            ("SERVICE=WFS&REQUEST=GetNothing", ("OperationNotSupported", "request", True)),
            ("SERVICE=WMS&REQUEST=GetCapabilities", ("InvalidParameterValue", "service", True)),
        ]:
            self.show(query, self.fault(self.root(query)), wanted)
        found = self.posted(
            f'<GetCapabilities xmlns="{WFS}" service="WFS"><AcceptVersions'
            f' xmlns="{OWS}"><Version>1.1.0</Version></AcceptVersions></GetCapabilities>'
        )
        self.show("GetCapabilities by POST", found.get("version"), "1.1.0")
        told = self.root("SERVICE=WFS&REQUEST=GetCapabilities")
        named = [one.get("name") for one in told.iter(f"{{{OWS}}}Operation")]
        self.show(
            "operations",
            named,
            [
                "GetCapabilities",
                "DescribeFeatureType",
                "GetFeature",
                "Transaction",
                "GetPropertyValue",
                "ListStoredQueries",
                "DescribeStoredQueries",
            ],
        )

    def stored_queries(self):
        # 14.3 and 14.4: the list, and what each asks for. 7.9.3.6: GetFeatureById returns the feature, and no
        # collection.
        listed = self.root("SERVICE=WFS&VERSION=2.0.0&REQUEST=ListStoredQueries")
        types = [one.text for one in listed.iter(f"{{{WFS}}}ReturnFeatureType")]
        self.show(
            "ListStoredQueries",
            ([one.get("id") for one in listed], len(types), "v:place.points" in types),
            ([BY_ID], 5, True),
        )
        for query in ("", f"&STOREDQUERY_ID={BY_ID}"):
            told = self.root(f"SERVICE=WFS&VERSION=2.0.0&REQUEST=DescribeStoredQueries{query}")
            found = [(one.get("id"), [part.get("name") for part in one.iter(f"{{{WFS}}}Parameter")]) for one in told]
            self.show(f"DescribeStoredQueries{query}", found, [(BY_ID, ["ID"])])
        told = self.posted(
            f"<DescribeStoredQueries {HEAD}><StoredQueryId>{BY_ID}</StoredQueryId></DescribeStoredQueries>"
        )
        self.show("DescribeStoredQueries by POST", [one.get("id") for one in told], [BY_ID])
        told = self.root("SERVICE=WFS&VERSION=2.0.0&REQUEST=DescribeStoredQueries&STOREDQUERY_ID=urn:nix")
        self.show(
            "a stored query that there isn't", self.fault(told), ("InvalidParameterValue", "STOREDQUERY_ID", True)
        )
        collection = self.root("SERVICE=WFS&VERSION=2.0.0&REQUEST=GetFeature&TYPENAMES=v:place.points")
        fid = next(
            one.get("{http://www.opengis.net/gml/3.2}id") for one in collection.iter("{urn:vtserve}place.points")
        )
        ask = f"SERVICE=WFS&VERSION=2.0.0&REQUEST=GetFeature&STOREDQUERY_ID={BY_ID}"
        found = self.root(f"{ask}&ID={fid}")
        told = found.tag, found.get("{http://www.opengis.net/gml/3.2}id"), found.findtext("{urn:vtserve}feature_id")
        self.show("GetFeatureById", told, ("{urn:vtserve}place.points", fid, fid.split(".")[2]))
        self.show(
            "GetFeatureById without a version",
            self.root(f"{ask}&ID=place.points.452").findtext("{urn:vtserve}name"),
            "Church",
        )
        for name in (BY_ID, "http://www.opengis.net/def/query/OGC-WFS/0/GetFeatureById"):
            query = (
                f'<GetFeature {HEAD}><StoredQuery id="{name}"><Parameter'
                f' name="ID">{fid}</Parameter></StoredQuery></GetFeature>'
            )
            self.show(f"{name} by POST", self.posted(query).tag, "{urn:vtserve}place.points")
        for more, wanted in [
            ("&ID=place.points.9", ("NotFound", "ID", True)),
            ("&ID=road.lines.452", ("NotFound", "ID", True)),
            ("&ID=<x>", ("NotFound", "ID", True)),
            ("", ("MissingParameterValue", "ID", True)),
        ]:
            found = tree.fromstring(
                curl(
                    f"{self.url}/wfs",
                    "--get",
                    *[word for part in f"{ask}{more}".split("&") for word in ("--data-urlencode", part)],
                )[2]
            )
            self.show(f"GetFeatureById{more or ' of nothing'}", self.fault(found), wanted)

    def by_xml(self):
        # 11.2.2: GetFeature by POST, with several queries; the same by GET finds the same.
        name = "<fes:ValueReference>v:name</fes:ValueReference><fes:Literal>Church</fes:Literal>"
        query = (
            "<Query"
            f' typeNames="v:place.points"><fes:Filter><fes:PropertyIsEqualTo>{name}</fes:PropertyIsEqualTo>'
            "</fes:Filter></Query>"
        )
        self.show("GetFeature by POST", self.names(self.posted(f"<GetFeature {HEAD}>{query}</GetFeature>")), ["Church"])
        two = self.posted(f'<GetFeature {HEAD}>{query}<Query typeNames="v:park.areas"/></GetFeature>')
        self.show(
            "two queries",
            (self.names(two), two.get("numberMatched"), len(list(two.iter("{urn:vtserve}park.areas")))),
            (["Church"], "4", 3),
        )
        every = self.posted(
            f'<GetFeature {HEAD} count="2" startIndex="1"><Query typeNames="v:place.points"/></GetFeature>'
        )
        self.show("count and startIndex", (every.get("numberMatched"), every.get("numberReturned")), ("5", "2"))
        hits = self.posted(
            f'<GetFeature {HEAD} resultType="hits"><Query typeNames="v:building.areas v:place.points"/></GetFeature>'
        )
        self.show("hits", (hits.get("numberMatched"), hits.get("numberReturned")), ("323", "0"))
        head = 'xmlns="http://www.opengis.net/wfs" service="WFS" version="1.1.0"'
        old = self.posted(f'<GetFeature {head} maxFeatures="3"><Query typeName="v:place.points"/></GetFeature>')
        self.show(
            "by version 1.1.0",
            (old.tag, old.get("numberOfFeatures")),
            ("{http://www.opengis.net/wfs}FeatureCollection", "3"),
        )
        told = self.posted(
            "<DescribeFeatureType"
            f" {HEAD}><TypeName>v:place.points</TypeName><TypeName>v:road.lines</TypeName></DescribeFeatureType>"
        )
        types = [one.get("name") for one in told if one.tag.endswith("complexType")]
        self.show("DescribeFeatureType by POST", types, ["place.pointsType", "road.linesType"])
        sort = (
            "<fes:SortBy><fes:SortProperty><fes:ValueReference>name</fes:ValueReference>"
            "<fes:SortOrder>DESC</fes:SortOrder></fes:SortProperty></fes:SortBy>"
        )
        found = self.posted(
            f"<GetFeature {HEAD}><Query"
            f' typeNames="v:place.points"><PropertyName>name</PropertyName>{sort}</Query></GetFeature>'
        )
        self.show(
            "sorted and with one property",
            (self.names(found), {len(one) for one in found.iter("{urn:vtserve}place.points")}),
            (["Town Hall", "School", "Lighthouse", "Harbour", "Church"], {1}),
        )
        # 10: values of one property.
        for ask, wanted in [
            ("name", ["Town Hall", "Church", "School", "Harbour", "Lighthouse"]),
            ("v:feature_id", ["451", "452", "453", "454", "455"]),
        ]:
            found = self.root(
                f"SERVICE=WFS&VERSION=2.0.0&REQUEST=GetPropertyValue&TYPENAMES=v:place.points&VALUEREFERENCE={ask}"
            )
            self.show(
                f"GetPropertyValue of {ask}",
                (found.get("numberReturned"), [one.text for member in found for one in member]),
                ("5", wanted),
            )
        asked = "SERVICE=WFS&VERSION=2.0.0&REQUEST=GetPropertyValue"
        by_id = f"{asked}&STOREDQUERY_ID={BY_ID}&ID=place.points.452&VALUEREFERENCE=name"
        self.show(
            "GetPropertyValue of one feature", [one.text for member in self.root(by_id) for one in member], ["Church"]
        )
        found = self.posted(f'<GetPropertyValue {HEAD} valueReference="@gml:id">{query}</GetPropertyValue>')
        self.show("GetPropertyValue of the ids", [one.text.rpartition(".")[0] for one in found], ["place.points.452"])
        for more, wanted in [
            ("", ("MissingParameterValue", "valueReference", True)),
            ("&VALUEREFERENCE=nix", ("InvalidParameterValue", "valueReference", True)),
        ]:
            found = self.root(f"SERVICE=WFS&VERSION=2.0.0&REQUEST=GetPropertyValue&TYPENAMES=v:place.points{more}")
            self.show(f"GetPropertyValue{more}", self.fault(found), wanted)

    def columns_and_order(self):
        places = "SERVICE=WFS&VERSION=2.0.0&REQUEST=GetFeature&TYPENAMES=v:place.points"
        buildings = places.replace("place.points", "building.areas")
        for query, wanted in [
            ("PROPERTYNAME=name", ["name"]),
            ("PROPERTYNAME=v:geom,name", ["geom", "name"]),
            ("PROPERTYNAME=(maxzoom,feature_id)", ["feature_id", "maxzoom"]),
            ("PROPERTYNAME=*", ["geom", "feature_id", "name", "minzoom", "maxzoom"]),
        ]:
            one = next(self.root(f"{places}&{query}").iter("{urn:vtserve}place.points"))
            self.show(query, [child.tag.rpartition("}")[2] for child in one], wanted)
        of_two = places.replace("v:place.points", "(v:place.points)(v:park.areas)")
        found = self.root(f"{of_two}&PROPERTYNAME=(name)(geom,minzoom)")
        kinds = {
            one.tag.rpartition("}")[2]: [child.tag.rpartition("}")[2] for child in one]
            for member in found
            for one in member
        }
        self.show("PROPERTYNAME of each layer", kinds, {"place.points": ["name"], "park.areas": ["geom", "minzoom"]})
        rows = [
            (int(one.findtext("{urn:vtserve}floors")), int(one.findtext("{urn:vtserve}house")))
            for one in self.root(f"{buildings}&SORTBY=floors%20DESC,house%20ASC").iter("{urn:vtserve}building.areas")
        ]
        self.show(
            "SORTBY as numbers, by two properties",
            (len(rows), rows),
            (318, sorted(rows, key=lambda row: (-row[0], row[1]))),
        )
        houses = [
            int(one.findtext("{urn:vtserve}house"))
            for one in self.root(f"{buildings}&SORTBY=house%20D&COUNT=3").iter("{urn:vtserve}building.areas")
        ]
        self.show("SORTBY before COUNT", houses, sorted((row[1] for row in rows), reverse=True)[:3])

    def wrong(self):
        places = "SERVICE=WFS&VERSION=2.0.0&REQUEST=GetFeature&TYPENAMES=v:place.points"
        for query, locator in [
            (f"{places}&PROPERTYNAME=nix", "propertyName"),
            (f"{places}&PROPERTYNAME=(name)(name)", "propertyName"),
            (f"{places}&SORTBY=nix", "sortBy"),
            (f"{places}&SORTBY=geom", "sortBy"),
            (f"{places}&SORTBY=name%20UP", "sortBy"),
            (f"{places}&SORTBY={','.join(['name'] * 11)}", "sortBy"),
            (f"{places}&OUTPUTFORMAT=application/json", "outputFormat"),
            (f"{places}&OUTPUTFORMAT=gml2", "outputFormat"),
            (f"{places}&RESULTTYPE=some", "resultType"),
            (f"{places}&SRSNAME=EPSG:4326", "srsName"),
            (places.replace("v:place.points", "v:nix"), "typeNames"),
            (f"{places}&STOREDQUERY_ID=urn:nix", "STOREDQUERY_ID"),
        ]:
            self.show(
                query.replace(places, "..")[:70], self.fault(self.root(query)), ("InvalidParameterValue", locator, True)
            )
        for form in (
            "application/gml%2Bxml;%20version=3.2",
            "application/gml+xml;version=3.2",
            "text/xml;%20subtype=gml/3.2",
        ):
            self.show(f"OUTPUTFORMAT={form}", self.names(self.root(f"{places}&OUTPUTFORMAT={form}"))[:1], ["Town Hall"])
        many = f"<GetFeature {HEAD}>{'<Query typeNames=_v:place.points_/>'.replace('_', chr(34)) * 51}</GetFeature>"
        self.show("very many queries", self.fault(self.posted(many)), ("InvalidParameterValue", "Query", True))
        parts = "<fes:PropertyIsNull><fes:ValueReference>name</fes:ValueReference></fes:PropertyIsNull>" * 2501
        body = (
            f"<GetFeature {HEAD}><Query"
            f' typeNames="v:place.points"><fes:Filter><fes:Or>{parts}</fes:Or></fes:Filter></Query></GetFeature>'
        )
        self.show(
            "a filter of very many parts", self.fault(self.posted(body)), ("InvalidParameterValue", "filter", True)
        )
        self.show(
            "a query with something else",
            self.fault(self.posted(f'<GetFeature {HEAD}><Query typeNames="v:place.points"><x/></Query></GetFeature>'))[
                0
            ],
            "InvalidParameterValue",
        )
        twice = self.root(f"{places.replace('v:place.points', ','.join(['v:place.points'] * 50))}")
        self.show("a layer that is named often is returned once", twice.get("numberReturned"), "5")

    def by_gdal(self):
        if subprocess.run([SYSTEM_PYTHON, "-c", "import osgeo"], capture_output=True, check=False).returncode:
            self.cases.say("standards: no GDAL: nothing is read by it")
            return
        sql = 'SELECT house FROM "v:building.areas" ORDER BY house DESC'
        told = subprocess.run(
            ["ogrinfo", "-ro", "-q", f"WFS:{self.url}/wfs", "-sql", sql],
            capture_output=True,
            text=True,
            timeout=200,
            check=False,
        ).stdout
        wanted = sorted(
            (
                one["properties"]["house"]
                for one in json.loads(text_of(f"{self.url}/ogc/collections/building.areas/items"))["features"]
            ),
            reverse=True,
        )
        self.show("GDAL sorts", [int(one) for one in re.findall(r"house \(Integer64\) = (\d+)", told)], wanted)
        path = os.path.join(self.folder, "names.csv")
        words = ["ogr2ogr", "-f", "CSV", path, f"WFS:{self.url}/wfs", "v:place.points", "-select", "name"]
        subprocess.run(words, capture_output=True, timeout=200, check=False)
        with open(path, encoding="utf-8") as file:
            self.show(
                "GDAL takes one property",
                sorted(row["name"] for row in csv.DictReader(file)),
                ["Church", "Harbour", "Lighthouse", "School", "Town Hall"],
            )

    # ---- OGC API Features

    def methods(self, public):
        items = "/ogc/collections/place.points/items"
        for method in ("POST", "PUT", "DELETE", "PATCH"):
            reply = curl(
                self.url + items,
                "-X",
                method,
                *(["-H", "Content-Type: application/json"] if method == "POST" else []),
                body="{}",
            )
            self.show(
                f"{method} is not allowed", (status_of(reply), field(reply, "allow")), (405, "GET, HEAD, OPTIONS")
            )
        reply = curl(self.url + items, "-X", "OPTIONS")
        self.show(
            "OPTIONS",
            (status_of(reply), field(reply, "allow"), field(reply, "access-control-allow-origin")),
            (204, "GET, HEAD, OPTIONS", None),
        )
        reply = curl(f"{self.url}/wfs", "-X", "OPTIONS")
        self.show("OPTIONS of the WFS", (status_of(reply), field(reply, "allow")), (204, "GET, HEAD, OPTIONS, POST"))
        self.show("another method of the WFS", status_of(curl(f"{self.url}/wfs", "-X", "PUT", body="x")), 405)
        origin = ["-H", "Origin: https://elsewhere.example"]
        self.show(
            "no page of another origin reads it",
            field(curl(self.url + items, *origin), "access-control-allow-origin"),
            None,
        )
        reply = curl(public + items, *origin)
        self.show("unless everybody may", (status_of(reply), field(reply, "access-control-allow-origin")), (200, "*"))
        reply = curl(public + items, "-X", "OPTIONS", *origin, "-H", "Access-Control-Request-Method: GET")
        found = (
            status_of(reply),
            field(reply, "access-control-allow-origin"),
            field(reply, "access-control-allow-methods"),
        )
        self.show("which the browser asks first", found, (204, "*", "GET, HEAD, OPTIONS"))
        for path in ("/wfs?REQUEST=GetCapabilities", "/wfs/schema.json"):
            self.show(
                f"{path} isn't for pages of others",
                field(curl(public + path, *origin), "access-control-allow-origin"),
                None,
            )
        reply = curl(f"{public}/wfs", "-X", "POST", *origin, "-H", XML, body="<x/>")
        self.show("nor is a change", status_of(reply), 403)

    def systems(self):
        # 18-058, requirements 3 to 16: lists of systems, crs, bbox-crs, Content-Crs; a value that isn't listed is 400.
        listed = json.loads(text_of(f"{self.url}/ogc/collections"))
        found = {(tuple(one["crs"]), one["storageCrs"]) for one in listed["collections"]}
        self.show("collections refer to the list of systems", found, {(("#/crs",), EPSG + "3857")})
        one = json.loads(text_of(f"{self.url}/ogc/collections/place.points"))
        self.show(
            "a collection lists them",
            (one["crs"] == listed["crs"], one["crs"][0], EPSG + "25832" in one["crs"], EPSG + "31467" in one["crs"]),
            (True, CRS84, True, True),
        )
        self.show(
            "of each the default",
            field(curl(f"{self.url}/ogc/collections/place.points/items"), "content-crs"),
            f"<{CRS84}>",
        )
        # The central meridian of zone 32 is 9 degrees, its false easting 500,000 m, and its northing at the equator 0.
        at = 2 ** 32 * 21 // 40, 2 ** 31
        body = json.dumps({"layer": "meridian", "minzoom": 0, "maxzoom": 2, "geometry": {"points": [at]}, "tags": {}})
        curl(f"{self.server.url}/features/9000", "-X", "PUT", body=body)
        items = f"{self.url}/ogc/collections/meridian.points/items"
        for code, wanted, near in [
            ("25832", (500000, 0), 0.02),
            ("3857", (1001875.417, 0), 0.02),
            ("4326", (0, 9), 2e-7),
            ("4258", (0, 9), 2e-7),
            ("31467", (None, 3500000), 200),
        ]:
            reply = curl(f"{items}?crs={EPSG}{code}")
            place = json.loads(reply[2])["features"][0]["geometry"]["coordinates"]
            is_near = all(want is None or abs(part - want) < near for part, want in zip(place, wanted))
            self.show(
                f"EPSG:{code} in the order of its axes",
                (is_near, field(reply, "content-crs")),
                (True, f"<{EPSG}{code}>"),
            )
            single = json.loads(text_of(f"{items}/9000?crs={EPSG}{code}"))
            self.show(f"EPSG:{code} of one feature", single["geometry"]["coordinates"], place)
            spans = [part - 0.001 * near for part in place], [part + 0.001 * near for part in place]
            wide = 1 if near > 1e-3 else 1e-5
            box = ",".join(str(part + sign * wide) for sign, parts in zip((-1, 1), spans) for part in parts)
            for query, count in ((box, 1), (",".join(str(float(part) + 40 * wide) for part in box.split(",")), 0)):
                found = json.loads(text_of(f"{items}?bbox={query}&bbox-crs={EPSG}{code}"))
                self.show(f"a box in EPSG:{code} {'around' if count else 'beside'} it", found["numberMatched"], count)
        for query in (
            "crs=EPSG:25832",
            f"crs={EPSG}99999",
            f"crs={EPSG}25832x",
            f"bbox-crs={EPSG}1",
            f"bbox=1,2,3&bbox-crs={EPSG}25832",
            f"bbox=9,9,1,1&bbox-crs={EPSG}25832",
            f"bbox=nan,1,2,3&bbox-crs={EPSG}3857",
            f"bbox=1e300,0,1e301,1&bbox-crs={EPSG}25832",
        ):
            self.show(f"{query[-50:]} is refused", status_of(curl(f"{items}?{query}")), 400)
        self.show(
            "the whole world by Web Mercator",
            json.loads(text_of(f"{items}?bbox=-1e9,-1e9,1e9,1e9&bbox-crs={EPSG}3857"))["numberMatched"],
            1,
        )
        self.show("no system of a collection", status_of(curl(f"{self.url}/ogc/collections?crs={CRS84}")), 400)
        page = json.loads(text_of(f"{self.url}/ogc/collections/building.areas/items?limit=5&crs={EPSG}25832"))
        following = next(link["href"] for link in page["links"] if link["rel"] == "next")
        self.show("the next page is in the same system", field(curl(following), "content-crs"), f"<{EPSG}25832>")
        self.projected_as_by_gdal(page)

    def projected_as_by_gdal(self, page):
        """GDAL's command projects the same features from longitude and latitude."""
        path = os.path.join(self.folder, "buildings.geojson")
        with open(path, "w", encoding="utf-8") as file:
            json.dump(json.loads(text_of(f"{self.url}/ogc/collections/building.areas/items?limit=5")), file)
        words = [
            "ogr2ogr",
            "-f",
            "GeoJSON",
            "-t_srs",
            "EPSG:25832",
            "-lco",
            "RFC7946=NO",
            "-lco",
            "COORDINATE_PRECISION=4",
            "/vsistdout/",
            path,
        ]
        told = json.loads(subprocess.run(words, capture_output=True, text=True, timeout=100, check=True).stdout)
        far = [
            abs(a - b)
            for ours, theirs in zip(page["features"], told["features"])
            for ring, other in zip(ours["geometry"]["coordinates"], theirs["geometry"]["coordinates"])
            for one, two in zip(ring, other)
            for a, b in zip(one, two)
        ]
        self.show("as GDAL's command projects them", (len(far) > 30, max(far) < 0.003), (True, True))

    def read_by_gdal(self, url):
        """What GDAL's command says of a GeoPackage."""
        path = os.path.join(self.folder, "download.gpkg")
        with open(path, "wb") as file:
            file.write(curl(url)[2])
        return subprocess.run(
            ["ogrinfo", "-ro", "-so", path, "building_areas"], capture_output=True, text=True, timeout=100, check=False
        ).stdout

    def downloads(self):
        curl(f"{self.server.url}/features/9000", "-X", "DELETE")
        tags = {"name": 'a,"b"\nc', "formula": "=1+1", "open": True}
        body = json.dumps(
            {"layer": "place", "minzoom": 3, "maxzoom": 9, "geometry": {"points": [[2**31, 2**31]]}, "tags": tags}
        )
        curl(f"{self.server.url}/features/460", "-X", "PUT", body=body)
        places = f"{self.url}/ogc/collections/place.points/items"
        reply = curl(f"{places}?f=csv")
        rows = list(csv.DictReader(io.StringIO(reply[2].decode("utf-8-sig"))))
        found = field(reply, "content-type"), field(reply, "content-disposition"), reply[2][:3]
        self.show(
            "CSV",
            found,
            (
                "text/csv; charset=utf-8; header=present",
                "attachment; filename*=UTF-8''place.points.csv",
                b"\xef\xbb\xbf",
            ),
        )
        self.show("CSV: columns", list(rows[0]), ["id", "lon", "lat", "formula", "name", "open", "minzoom", "maxzoom"])
        last = rows[-1]
        self.show(
            "CSV: a row",
            [last["id"], float(last["lon"]), last["name"], last["formula"], last["open"], last["minzoom"]],
            ["460", 4e-8, tags["name"], "=1+1", "true", "3"],
        )
        self.show(
            "CSV: what is asked for, and all of it",
            len(list(csv.DictReader(io.StringIO(text_of(f"{places}?f=csv&name=Church&limit=1"))))),
            1,
        )
        areas = f"{self.url}/ogc/collections/building.areas/items"
        shapes = list(csv.DictReader(io.StringIO(text_of(f"{areas}?f=csv&crs={EPSG}25832&limit=1"))))
        self.show(
            "CSV: shapes as text, in another system",
            (len(shapes), bool(re.match(r"POLYGON \(\(40\d{4}\.\d+ 60\d{5}\.\d+, ", shapes[0]["wkt"]))),
            (318, True),
        )
        told = self.read_by_gdal(f"{areas}?f=gpkg")
        found = re.findall(r"Feature Count: (\d+)|Geometry: (.*)|(floors|house|minzoom): (\w+)", told)
        self.show(
            "GeoPackage, as GDAL reads it",
            ["".join(row) for row in found],
            ["Multi Polygon", "318", "floorsInteger64", "houseInteger64", "minzoomInteger64"],
        )
        self.show("it is in Web Mercator", 'ID["EPSG",3857]' in told, True)
        self.show(
            "a GeoPackage of nothing",
            re.findall(r"Feature Count: (\d+)", self.read_by_gdal(f"{areas}?f=gpkg&house=-1")),
            ["0"],
        )
        for query in ("f=shp", "f=csv&nix=1", f"f=gpkg&crs={CRS84}"):
            self.show(f"{query[:20]} is refused", status_of(curl(f"{areas}?{query}")), 400)
        self.show("a file of something else is refused", status_of(curl(f"{self.url}/ogc/collections?f=csv")), 400)
        page = json.loads(text_of(f"{places}?limit=1&name=Church"))
        links = {link["type"]: link["href"] for link in page["links"] if link["rel"] == "alternate"}
        self.show("a page links to the files", links.get("text/csv"), f"{places}?name=Church&f=csv")
        self.show("the feature is there", feature_at(self.server.url, 460)["tags"], tags)
