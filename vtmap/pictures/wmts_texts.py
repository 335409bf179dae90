"""The documents of WMTS 1.0.0: capabilities, and reports of refusals (OWS Common 1.1). Needs no package."""
from __future__ import annotations

from ..geometry.world import EARTH, HALF
from ..markup import Xml, document, element
from .tiles import LAST_ZOOM, SIDE
from .wmts import CAPABILITIES, LAYER, MATRICES, OPAQUE, PNG, STYLES, TRANSPARENT, VERSION, Report

OWS, WMTS, XLINK, XSI = (
    "http://www.opengis.net/ows/1.1",
    "http://www.opengis.net/wmts/1.0",
    "http://www.w3.org/1999/xlink",
    "http://www.w3.org/2001/XMLSchema-instance",
)
PLACES = {"xmlns": WMTS, "xmlns:ows": OWS, "xmlns:xlink": XLINK, "xmlns:xsi": XSI}
SCHEMA = f"{WMTS} http://schemas.opengis.net/wmts/1.0/wmtsGetCapabilities_response.xsd"
CRS, SCALES = "urn:ogc:def:crs:EPSG::3857", "urn:ogc:def:wkss:OGC:1.0:GoogleMapsCompatible"
# The metres of a pixel of which a scale is told.
PIXEL = 0.00028
WHOLE_WORLD = (-180.0, -85.051128, 180.0, 85.051128)
TITLES = {OPAQUE: "with the background", TRANSPARENT: "without the background"}


def report(fault: Report) -> str:
    """Why a request is refused."""
    text = element("ows:ExceptionText", str(fault))
    said = element("ows:Exception", text, exceptionCode=fault.code, locator=fault.locator)
    return document(element("ows:ExceptionReport", said, **{"xmlns:ows": OWS, "version": "1.1.0", "xml:lang": "en"}))


def operation(name: str, address: str) -> Xml:
    """An operation that is asked for by a query."""
    allowed = element("ows:Constraint", element("ows:AllowedValues", element("ows:Value", "KVP")), name="GetEncoding")
    get = element("ows:Get", allowed, **{"xlink:href": address + "?"})
    return element("ows:Operation", element("ows:DCP", element("ows:HTTP", get)), name=name)


def layer(address: str, title: str, bounds: tuple[float, ...]) -> Xml:
    """The one layer, which is the whole map."""
    west, south, east, north = bounds
    corners = [
        element("ows:LowerCorner", f"{west:.9g} {south:.9g}"),
        element("ows:UpperCorner", f"{east:.9g} {north:.9g}"),
    ]
    styles = [
        element(
            "Style",
            element("ows:Title", TITLES[style]),
            element("ows:Identifier", style),
            isDefault=str(style == OPAQUE).lower(),
        )
        for style in STYLES
    ]
    template = f"{address}/{VERSION}/{LAYER}/{{Style}}/{{TileMatrixSet}}/{{TileMatrix}}/{{TileRow}}/{{TileCol}}.png"
    return element(
        "Layer",
        element("ows:Title", title),
        element("ows:WGS84BoundingBox", *corners),
        element("ows:Identifier", LAYER),
        *styles,
        element("Format", PNG),
        element("TileMatrixSetLink", element("TileMatrixSet", MATRICES)),
        element("ResourceURL", format=PNG, resourceType="tile", template=template),
    )


def matrix(zoom: int) -> Xml:
    """The tiles of a zoom."""
    count = 2**zoom
    return element(
        "TileMatrix",
        element("ows:Identifier", zoom),
        element("ScaleDenominator", repr(EARTH / SIDE / count / PIXEL)),
        element("TopLeftCorner", f"{-HALF!r} {HALF!r}"),
        element("TileWidth", SIDE),
        element("TileHeight", SIDE),
        element("MatrixWidth", count),
        element("MatrixHeight", count),
    )


def capabilities(address: str, title: str, bounds: tuple[float, ...]) -> str:
    """What there is, at the address of the service."""
    service = element(
        "ows:ServiceIdentification",
        element("ows:Title", title),
        element("ows:ServiceType", "OGC WMTS"),
        element("ows:ServiceTypeVersion", VERSION),
    )
    operations = element("ows:OperationsMetadata", operation("GetCapabilities", address), operation("GetTile", address))
    matrices = element(
        "TileMatrixSet",
        element("ows:Identifier", MATRICES),
        element("ows:SupportedCRS", CRS),
        element("WellKnownScaleSet", SCALES),
        *map(matrix, range(LAST_ZOOM + 1)),
    )
    contents = element("Contents", layer(address, title, bounds), matrices)
    url = element("ServiceMetadataURL", **{"xlink:href": address + CAPABILITIES})
    return document(
        element(
            "Capabilities",
            service,
            operations,
            contents,
            url,
            **PLACES,
            version=VERSION,
            **{"xsi:schemaLocation": SCHEMA},
        )
    )
