"""The texts of WFS 2.0.0 and 1.1.0: capabilities, schemas, features, reports, and the replies to Transactions. Needs no
package."""
from __future__ import annotations

import time
from collections.abc import Container, Iterable, Mapping, Sequence
from typing import NamedTuple, Tuple

from ..files.checkout_file import ZOOMS
from ..geometry.gml import gml_of
from ..geometry.world import WORLD, degrees
from ..markup import Frame, Xml, document, element
from .tables import ID, SHAPE, Table, View, text_of

SPACE, TITLE = "urn:vtserve", "The feature of an id"
OPERATIONS = ("GetCapabilities", "DescribeFeatureType", "GetFeature", "Transaction")
OF_V2 = ("GetPropertyValue", "ListStoredQueries", "DescribeStoredQueries")
TRUTHS = {
    "ImplementsSimpleWFS": True,
    "ImplementsBasicWFS": True,
    "ImplementsTransactionalWFS": True,
    "ImplementsLockingWFS": False,
    "KVPEncoding": True,
    "XMLEncoding": True,
    "SOAPEncoding": False,
    "ImplementsSorting": True,
    "ImplementsResultPaging": False,
    "ManageStoredQueries": False,
}
FORMS = {"TEXT": "xsd:string", "INTEGER": "xsd:long", "BOOLEAN": "xsd:boolean"}
SHAPES = {
    "points": ("PointPropertyType", "MultiPointPropertyType"),
    "lines": ("CurvePropertyType", "MultiCurvePropertyType"),
    "polygons": ("SurfacePropertyType", "MultiSurfacePropertyType"),
}

# A feature with its table.
Found = Tuple[Table, View]


class Version(NamedTuple):
    """What a version says otherwise than another: namespaces, the name of EPSG:3857, of the element that names it, of
    the format and of its schema, of what a feature substitutes, and of an id in a filter with its attribute."""

    name: str
    wfs: str
    filter: str
    ows: str
    gml: str
    system: str
    system_element: str
    format: str
    schema: str
    feature: str
    id_element: str
    id_name: str


V2 = Version(
    "2.0.0",
    "http://www.opengis.net/wfs/2.0",
    "http://www.opengis.net/fes/2.0",
    "http://www.opengis.net/ows/1.1",
    "http://www.opengis.net/gml/3.2",
    "urn:ogc:def:crs:EPSG::3857",
    "CRS",
    "application/gml+xml; version=3.2",
    "3.2.1",
    "AbstractFeature",
    "ResourceId",
    "rid",
)
V1 = Version(
    "1.1.0",
    "http://www.opengis.net/wfs",
    "http://www.opengis.net/ogc",
    "http://www.opengis.net/ows",
    "http://www.opengis.net/gml",
    "EPSG:3857",
    "SRS",
    "text/xml; subtype=gml/3.1.1",
    "3.1.1/base",
    "_Feature",
    "FeatureId",
    "fid",
)
VERSIONS = {version.name: version for version in (V2, V1)}
# QGIS 3.22 writes Transactions of this version, whatever the version of its other requests.
OLD = "1.0.0"


def chosen(names: str) -> Version:
    """The first of these versions that is known; 1.1.0 if none is."""
    return next((VERSIONS[name.strip()] for name in names.split(",") if name.strip() in VERSIONS), V1)


def spaces(version: Version) -> dict[str, str]:
    """The namespaces of a document."""
    return {
        "xmlns:wfs": version.wfs,
        "xmlns:ogc": version.filter,
        "xmlns:ows": version.ows,
        "xmlns:gml": version.gml,
        "xmlns:v": SPACE,
        "xmlns:xlink": "http://www.w3.org/1999/xlink",
    }


# ---- capabilities


def capabilities(version: Version, tables: Iterable[Table], address: str) -> str:
    """What there is, and at which address it is asked for."""
    service = element(
        "ows:ServiceIdentification",
        element("ows:Title", "vtserve"),
        element("ows:ServiceType", "WFS"),
        element("ows:ServiceTypeVersion", version.name),
    )
    each = [element("wfs:Operation", name) for name in ("Query", "Insert", "Update", "Delete")]
    types = [table_of(version, table) for table in tables]
    can = element("ogc:Filter_Capabilities", element("ogc:Spatial_Capabilities"), element("ogc:Scalar_Capabilities"))
    named = [operation(version, name, address) for name in (*OPERATIONS, *(OF_V2 if version is V2 else ()))]
    if version is V2:
        operations, listed = element("ows:OperationsMetadata", *named, *constraints()), element(
            "wfs:FeatureTypeList", *types
        )
    else:
        operations, listed = element("ows:OperationsMetadata", *named), element(
            "wfs:FeatureTypeList", element("wfs:Operations", *each), *types
        )
    return document(
        element("wfs:WFS_Capabilities", service, operations, listed, can, version=version.name, **spaces(version))
    )


def operation(version: Version, name: str, address: str) -> Xml:
    """How an operation is asked for."""
    words = [parameter(version, "AcceptVersions", list(VERSIONS))] if name == "GetCapabilities" else []
    words += (
        [parameter(version, "outputFormat", [version.format])] if name in ("GetFeature", "DescribeFeatureType") else []
    )
    words += [parameter(version, "resultType", ["results", "hits"])] if name == "GetFeature" else []
    ways = element("ows:Get", **{"xlink:href": f"{address}?"}), element("ows:Post", **{"xlink:href": address})
    return element("ows:Operation", element("ows:DCP", element("ows:HTTP", *ways)), *words, name=name)


def parameter(version: Version, name: str, values: Iterable[str]) -> Xml:
    """The values that a parameter may have."""
    made = [element("ows:Value", value) for value in values]
    return element("ows:Parameter", *([element("ows:AllowedValues", *made)] if version is V2 else made), name=name)


def constraints() -> list[Xml]:
    """What of WFS 2 there is."""
    return [
        element("ows:Constraint", element("ows:NoValues"), element("ows:DefaultValue", str(value).upper()), name=name)
        for name, value in TRUTHS.items()
    ]


def table_of(version: Version, table: Table) -> Xml:
    """What is said of a table."""
    west, north, east, south = table.box or (0, 0, WORLD - 1, WORLD - 1)
    low, high = degrees((west, south)), degrees((east, north))
    box = element(
        "ows:WGS84BoundingBox",
        element("ows:LowerCorner", f"{low[0]:.7f} {low[1]:.7f}"),
        element("ows:UpperCorner", f"{high[0]:.7f} {high[1]:.7f}"),
    )
    return element(
        "wfs:FeatureType",
        element("wfs:Name", f"v:{table.name}"),
        element("wfs:Title", table.title),
        element(f"wfs:Default{version.system_element}", version.system),
        box,
    )


def schema(version: Version, tables: Iterable[Table]) -> str:
    """The columns of tables."""
    made = [
        element(
            "xsd:import",
            namespace=version.gml,
            schemaLocation=f"http://schemas.opengis.net/gml/{version.schema}/gml.xsd",
        )
    ]
    for table in tables:
        columns = [(SHAPE, "gml:" + SHAPES[table.kind][table.is_several]), (ID, "xsd:long")]
        columns += [(name, FORMS[form]) for name, (_, form) in table.columns.items()] + [
            (zoom, "xsd:int") for zoom in ZOOMS
        ]
        inner = element(
            "xsd:sequence",
            *[element("xsd:element", name=name, type=form, minOccurs=0, nillable="true") for name, form in columns],
        )
        content = element("xsd:complexContent", element("xsd:extension", inner, base="gml:AbstractFeatureType"))
        made.append(element("xsd:complexType", content, name=f"{table.name}Type"))
        made.append(
            element(
                "xsd:element", name=table.name, type=f"v:{table.name}Type", substitutionGroup=f"gml:{version.feature}"
            )
        )
    names = {"xmlns:xsd": "http://www.w3.org/2001/XMLSchema", "xmlns:gml": version.gml, "xmlns:v": SPACE}
    return document(element("xsd:schema", *made, **names, targetNamespace=SPACE, elementFormDefault="qualified"))


# ---- features


def features(
    version: Version,
    found: Sequence[Found],
    fids: Sequence[str],
    matched: int,
    wanted: Mapping[str, Container[str] | None] | None = None,
) -> str:
    """Features: pairs of table and view, and their ids. `matched`: how many there are with those that aren't returned.
    `wanted`: which columns of each table are written, by its name; None for all."""
    rows = {
        table.name: Rows(version, table, (wanted or {}).get(table.name))
        for table in {table.name: table for table, _ in found}.values()
    }
    members = [rows[table.name].member(view, fid) for (table, view), fid in zip(found, fids)]
    return frame_of(version, matched, len(found)).document(members)


def frame_of(version: Version, matched: int | str, returned: int) -> Frame:
    """What is around features. `matched`: how many there are with those that aren't returned."""
    counts = (
        {"numberMatched": matched, "numberReturned": returned}
        if version is V2
        else {"numberOfFeatures": returned or matched}
    )
    attributes: dict[str, object] = {**spaces(version), "timeStamp": now()}
    whole = "wfs:FeatureCollection", {**attributes, **counts}
    return Frame(whole, *(["gml:featureMembers"] if returned and version is V1 else []))


def now() -> str:
    """The time, as replies have it."""
    return time.strftime("%Y-%m-%dT%H:%M:%SZ", time.gmtime())


def feature(version: Version, table: Table, view: View, fid: str) -> str:
    """One feature, without a collection around it."""
    return document(
        element(f"v:{table.name}", *Rows(version, table).columns(view), **{"gml:id": fid}, **spaces(version))
    )


def cells(found: Iterable[Found], name: str) -> list[Xml]:
    """The values of a column of features, each as an element; of those that have one."""
    made = [Rows(V2, table, frozenset([name])).columns(view) for table, view in found]
    return [cell for columns in made for cell in columns]


def parts_of(table: Table, view: View, fid: str, name: str) -> Sequence[object]:
    """The values of a property of a feature, as `values` takes them."""
    if name.startswith("@"):
        return [fid]
    return Rows(V2, table, frozenset([name.strip().split("/")[-1].rpartition(":")[2]])).columns(view)


def values(parts: Sequence[object], matched: int) -> str:
    """Values of a property: elements, or texts."""
    return frame_of_values(matched, len(parts)).document([element("wfs:member", part) for part in parts])


def frame_of_values(matched: int | str, returned: int) -> Frame:
    """What is around values of a property."""
    return Frame(
        (
            "wfs:ValueCollection",
            {**spaces(V2), "timeStamp": now(), "numberMatched": matched, "numberReturned": returned},
        )
    )


class Rows:
    """How the features of a table are written: as members of a collection of a version. `wanted`: which columns, None
    for all."""

    def __init__(self, version: Version, table: Table, wanted: Container[str] | None = None) -> None:
        self.version, self.table, self.wanted, self.key = version, table, wanted, (version.name, table.form)
        self.shape, self.number = Frame(f"v:{SHAPE}"), Frame(f"v:{ID}")
        self.tags = [(tag, form, Frame(f"v:{name}")) for name, (tag, form) in table.columns.items() if self.has(name)]
        self.zooms = [(zoom, Frame(f"v:{zoom}")) for zoom in ZOOMS if self.has(zoom)]
        self.name, self.around = f"v:{table.name}", Frame(*(["wfs:member"] if version is V2 else []))

    def member(self, view: View, fid: str) -> str:
        """A feature. It is written once for all who have it under the same id."""
        if self.wanted is not None:
            return self.around.of(element(self.name, *self.columns(view), **{"gml:id": fid}))
        # Another request may keep its own way of writing it meanwhile.
        last, written = view.written
        if last != (self.key, fid):
            written = self.around.of(element(self.name, *self.columns(view), **{"gml:id": fid}))
            view.written = (self.key, fid), written
        return written

    def columns(self, view: View) -> list[Xml]:
        """The columns of a feature."""
        tags = view.feature["tags"]
        made = (
            [self.shape.of(gml_of(view.feature["geometry"], self.table.is_several, self.version.system))]
            if self.has(SHAPE)
            else []
        )
        made += [self.number.of(view.number)] if self.has(ID) else []
        for tag, form, frame in self.tags:
            text = text_of(tags.get(tag), form)
            if text is not None:
                made.append(frame.of(text))
        return made + [frame.of(view.feature[zoom]) for zoom, frame in self.zooms]

    def has(self, name: str) -> bool:
        """Whether a column is written."""
        return self.wanted is None or name in self.wanted


# ---- stored queries


def stored_queries(name: str, tables: Iterable[Table]) -> str:
    """The list of the one stored query, and what it may return."""
    types = [element("wfs:ReturnFeatureType", f"v:{table.name}") for table in tables] or [
        element("wfs:ReturnFeatureType")
    ]
    query = element("wfs:StoredQuery", element("wfs:Title", TITLE), *types, id=name)
    return document(element("wfs:ListStoredQueriesResponse", query, **spaces(V2)))


def described_queries(name: str) -> str:
    """What the one stored query asks for."""
    text = element(
        "wfs:QueryExpressionText",
        returnFeatureTypes="",
        language="urn:ogc:def:queryLanguage:OGC-WFS::WFSQueryExpression",
        isPrivate="true",
    )
    query = element(
        "wfs:StoredQueryDescription",
        element("wfs:Title", TITLE),
        element("wfs:Parameter", name="ID", type="xsd:string"),
        text,
        id=name,
    )
    return document(
        element(
            "wfs:DescribeStoredQueriesResponse",
            query,
            **spaces(V2),
            **{"xmlns:xsd": "http://www.w3.org/2001/XMLSchema"},
        )
    )


# ---- reports


def refused(version: Version, code: str, fault: BaseException) -> str:
    """Why a request isn't answered. A fault may know its code, and the parameter that it is about."""
    return report(version, getattr(fault, "code", code), str(fault), getattr(fault, "locator", None))


def report(version: Version, code: str, text: str, locator: str | None = None) -> str:
    """Why something isn't done."""
    about = {"locator": locator} if locator else {}
    told = element("ows:Exception", element("ows:ExceptionText", text), exceptionCode=code, **about)
    return document(element("ows:ExceptionReport", told, version=version.name, **{"xmlns:ows": version.ows}))


def transacted(name: str, counts: Mapping[str, int], fids: Sequence[str]) -> str:
    """The reply to a Transaction of a version."""
    if name == OLD:
        ids = [element("wfs:InsertResult", *[element("ogc:FeatureId", fid=fid) for fid in fids])] if fids else []
        done = element("wfs:TransactionResult", element("wfs:Status", element("wfs:SUCCESS")))
        return document(
            element(
                "wfs:WFS_TransactionResponse", *ids, done, version=OLD, **{"xmlns:wfs": V1.wfs, "xmlns:ogc": V1.filter}
            )
        )
    version = chosen(name)
    totals = [
        element(f"wfs:total{done}", counts[action])
        for action, done in (("Insert", "Inserted"), ("Update", "Updated"), ("Delete", "Deleted"))
    ]
    made = [element("wfs:Feature", element(f"ogc:{version.id_element}", **{version.id_name: fid})) for fid in fids]
    results = [element("wfs:InsertResults", *made)] if made else []
    return document(
        element(
            "wfs:TransactionResponse",
            element("wfs:TransactionSummary", *totals),
            *results,
            version=version.name,
            **{"xmlns:wfs": version.wfs, "xmlns:ogc": version.filter},
        )
    )
