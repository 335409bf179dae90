"""The features of a file that GDAL reads: geometry in the units of the map, attributes as tags, ids of GeoJSON."""
from __future__ import annotations

import itertools
import json
import math
import re
from collections.abc import Iterator, Sequence

from osgeo import gdal, ogr, osr

from ..forms import Tags, Value
from ..geometry.shapes import Shape, Unfit
from ..geometry.world import EARTH, HALF, WORLD
from ..limits import MOST_TAG
from ..progress import tell_large
from ..shown import shown
from . import cut_text, import_rules
from .file_place import Place, Unreadable
from .import_rules import COLUMNS, DEGREES
from .texts import Texts

# A number in the columns of a table's points.
NUMBER = re.compile(import_rules.NUMBER)
KINDS = {
    ogr.wkbPoint: "points",
    ogr.wkbMultiPoint: "points",
    ogr.wkbLineString: "lines",
    ogr.wkbMultiLineString: "lines",
    ogr.wkbPolygon: "polygons",
    ogr.wkbMultiPolygon: "polygons",
}
# Types of fields that become texts, as a GeoPackage names them.
TYPES = {ogr.OFTReal: "REAL", ogr.OFTDate: "DATE", ogr.OFTDateTime: "DATETIME"}
DROPPED = {
    ogr.OFTIntegerList: "a list",
    ogr.OFTInteger64List: "a list",
    ogr.OFTRealList: "a list",
    ogr.OFTStringList: "a list",
    ogr.OFTBinary: "bytes",
}


# What GDAL makes of a whole number that is smaller or greater than these, without a word.
LEAST, GREATEST = -2 ** 63, 2 ** 63 - 1
# Rows that are named each; the rest is counted.
MOST_ROWS = 20
# What GDAL says of a polygon that isn't valid, and what a user reads.
INVALID = {"Self-intersection": "their rings cross", "Ring Self-intersection": "a ring touches itself"}


class Notes:
    """What a user should know of many features: each note once, with how many features it is about, an example of the first, and the rows of some."""

    def __init__(self) -> None:
        self.counts: dict[str, int] = {}
        self.examples: dict[str, str] = {}
        self.rows: dict[str, list[str]] = {}

    def add(self, note: str, example: str | None = None, row: str | None = None) -> None:
        self.counts[note] = self.counts.get(note, 0) + 1
        if example is not None:
            self.examples.setdefault(note, f" (as in {example[:40]!r})")
        if row is not None and self.counts[note] <= MOST_ROWS:
            self.rows.setdefault(note, []).append(row)

    def show(self) -> None:
        for note, count in self.counts.items():
            rows = self.rows.get(note, [])
            more = f" and {count - len(rows):,} more" if rows and count > len(rows) else ""
            print(f"note: {shown(note)}{self.examples.get(note, '')}: {count:,} feature{'s' if count > 1 else ''}"
                  f"{': ' if rows else ''}{', '.join(map(shown, rows))}{more}", flush=True)


class Nowhere(Exception):
    """A feature without a geometry: nothing is wrong with it, but no map can show it."""


class Reader:
    """Reads features. `encoding` is that of its texts if the file doesn't say it or says a wrong one, `cuts` whether long texts are cut,
    `columns` the names of the columns of x and y of a table, `id_field` the field of the ids, `is_whole` whether the file is taken as whole,
    although it seems to be cut."""

    def __init__(
        self,
        path: str,
        source: str | None = None,
        crs: str | None = None,
        encoding: str | None = None,
        cuts: bool = False,
        columns: tuple[str, str] | None = None,
        id_field: str | None = None,
        is_whole: bool = False,
    ) -> None:
        self.path, self.crs, self.cuts, self.id_field, self.is_whole = path, crs, cuts, id_field, is_whole
        self.notes = Notes()
        self.place = Place(path)
        encoding = None if self.place.text is not None else encoding
        tell_large(path)
        self.file, self.failure = opened(self.place.path, path, encoding, keeps_text=id_field == "id")
        self.kind = self.file.GetDriver().ShortName
        # The row of the feature that was read last, from 1 on in each layer, what is wrong with its polygons, and how many were read.
        self.row, self.read = 0, 0
        self.fault: str | None = None
        # The columns of x and y of a table.
        self.columns: tuple[str, ...] = ()
        self.layers = self.layers_of(source)
        if all(map(is_table, self.layers)):
            if len(self.layers) > 1:
                raise Unreadable(f"{path} has tables alone, without geometry: name one by --source, and the columns of its points by --x and --y")
            self.read_columns(self.layers[0], columns)
        elif columns:
            raise Unreadable("--x and --y name columns of a table, and the file has geometries")
        self.layers = [layer for layer in self.layers if self.columns or not self.is_left_out(layer)]
        self.look_for_end()
        self.texts = Texts(self.file, encoding, self.notes, self.features_of)

    def layers_of(self, source: str | None) -> list[ogr.Layer]:
        """All layers of the file, or the one of this name."""
        layers = [self.file.GetLayer(at) for at in range(self.file.GetLayerCount())]
        chosen = [layer for layer in layers if source in (None, layer.GetName())]
        if not chosen:
            raise Unreadable(f"{self.path} has no layer {source}: its layers are {', '.join(shown(layer.GetName()) for layer in layers)}")
        return chosen

    def look_for_end(self) -> None:
        """Refuses a text file of lines that has lost its end."""
        columns = self.file.GetLayer(0).GetLayerDefn().GetFieldCount() if self.kind == "CSV" else 0
        if self.is_whole or not (columns or self.path.lower().endswith(".mif")):
            return
        file = self.place.opened()
        if file is not None:
            with file:
                self.refuse(cut_text.fault_of(file, columns))

    def refuse(self, fault: str | None) -> None:
        """Refuses a file that isn't whole, if there is such a fault."""
        if fault and not self.is_whole:
            raise Unreadable(f"{self.path} seems to be cut: {fault}. Get all of it, or say --not-cut if it is whole")

    def features(self) -> Iterator[tuple[ogr.Layer, ogr.Feature]]:
        """Each feature with its layer."""
        for layer in self.layers:
            for self.row, feature in enumerate(self.features_of(layer), 1):
                self.read += 1
                yield layer, feature
        if not self.read:
            self.refuse(self.failure and f"GDAL says {self.failure!r}")

    def features_of(self, layer: ogr.Layer) -> Iterator[ogr.Feature]:
        """Each feature of a layer. Of a file that ends early GDAL returns those before, and says so beside them."""
        for read in itertools.count():
            gdal.ErrorReset()
            try:
                feature = layer.GetNextFeature()
            except RuntimeError as fault:
                # As GDAL 3.7 and newer ones say it, which return no feature after that.
                self.refuse(f"after row {read:,} GDAL says {str(fault)!r}")
                return
            if gdal.GetLastErrorType() >= gdal.CE_Failure:
                self.refuse(f"after row {read:,} GDAL says {gdal.GetLastErrorMsg()!r}")
            if feature is None:
                return
            yield feature

    def at(self, name: str) -> str:
        """Where the feature that was read last is in the file, in the layer of this name."""
        return f"row {self.row:,}" + (f" of {shown(name)}" if len(self.layers) > 1 else "")

    def feature_count(self) -> int | None:
        """How many features the file has, None if GDAL would have to read all of it for that."""
        counts = [layer.GetFeatureCount(0) for layer in self.layers]
        return sum(counts) if min(counts, default=-1) >= 0 else None

    @staticmethod
    def is_left_out(layer: ogr.Layer) -> bool:
        """Whether a layer beside others is a table without geometry, which is said."""
        if is_table(layer):
            print(f"note: the layer {shown(layer.GetName())} of the file is a table without geometry, and isn't read", flush=True)
        return is_table(layer)

    def read_columns(self, table: ogr.Layer, columns: tuple[str, str] | None) -> None:
        """Finds the two columns of a table that are the points. Longitude and latitude need no --crs."""
        layer = table.GetLayerDefn()
        names = {layer.GetFieldDefn(at).GetName().lower(): layer.GetFieldDefn(at).GetName() for at in range(layer.GetFieldCount())}
        pair = columns or next((pair for pair in COLUMNS if set(pair) <= set(names)), None)
        if pair is None or not {name.lower() for name in pair} <= set(names):
            raise Unreadable(import_rules.NO_COLUMNS.format(path=self.path, names=", ".join(map(shown, names.values()))))
        x, y = (names[name.lower()] for name in pair)
        if self.crs is None and (x.lower(), y.lower()) in DEGREES:
            self.crs = "EPSG:4326"
        self.columns = x, y

    def projection(self, layer: ogr.Layer) -> osr.CoordinateTransformation:
        """From the layer's coordinate system to Web Mercator, x before y in both."""
        source = layer.GetSpatialRef()
        # GDAL takes GeoJSON for longitude and latitude, whatever it is.
        if self.crs is not None and (source is None or self.kind.startswith("GeoJSON")):
            source = system_of(self.crs)
        elif source is None:
            raise Unreadable(f"the layer {shown(layer.GetName())} has no coordinate system: name it with --crs, as in --crs EPSG:4326")
        elif self.crs is not None:
            print(f"note: the layer {shown(layer.GetName())} names its coordinate system itself: --crs isn't used", flush=True)
        source = source.Clone()
        target = osr.SpatialReference()
        target.ImportFromEPSG(3857)
        for system in (source, target):
            system.SetAxisMappingStrategy(osr.OAMS_TRADITIONAL_GIS_ORDER)
        return osr.CoordinateTransformation(source, target)

    def shape(self, feature: ogr.Feature, projection: osr.CoordinateTransformation) -> Shape:
        """The shape of a feature."""
        geometry = self.point(feature) if self.columns else feature.GetGeometryRef()
        if geometry is None or geometry.IsEmpty():
            raise Nowhere
        if geometry.Is3D():
            self.notes.add(import_rules.HEIGHTS)
        if geometry.IsMeasured():
            self.notes.add("measures (M) are dropped")
        if geometry.HasCurveGeometry(True):
            self.notes.add("curves are made lines of short segments")
        geometry = geometry.GetLinearGeometry()
        geometry.FlattenTo2D()
        kind = KINDS.get(geometry.GetGeometryType())
        if kind is None:
            raise Unfit(import_rules.NO_KIND.format(kind=geometry.GetGeometryName()))
        self.fault = gdal.GetLastErrorMsg() if kind == "polygons" and not geometry.IsValid() else None
        if geometry.Transform(projection) != ogr.OGRERR_NONE:
            raise Unfit("it can't be projected to Web Mercator")
        lists = lists_of(kind, geometry)
        if not lists:
            raise Nowhere
        return kind, lists

    def tell_shape(self) -> None:
        """Notes that the rings of the polygon that was read last cross, or what else makes it none, and where."""
        reason, _, place = (self.fault or "").partition(" at or near point ")
        if reason and "GEOS" not in reason:
            row = f"row {self.row:,}" + (f" at {' '.join(format(float(part), '.9g') for part in place.split())}" if place else "")
            self.notes.add(INVALID.get(reason, f"no valid polygon ({reason})"), row=row)

    def point(self, feature: ogr.Feature) -> ogr.Geometry | None:
        """The point of a row of a table, None if it has none. Of what is no number GDAL would take a part, or nothing."""
        cells = [feature.GetFieldAsString(name).strip() for name in self.columns]
        if not any(cells):
            return None
        if not all(NUMBER.fullmatch(cell) for cell in cells):
            told = " and ".join(f"its {shown(name)} is {cell!r}" for name, cell in zip(self.columns, cells))
            raise Unfit(import_rules.TWO_NUMBERS.format(told=told))
        made = ogr.Geometry(ogr.wkbPoint)
        made.AddPoint_2D(*(float(cell.replace(",", ".")) for cell in cells))
        return made

    def identity(self, feature: ogr.Feature) -> object:
        """The value of the field of the ids: of GeoJSON `id` is the feature's own, `FID` is GDAL's."""
        text = feature.GetNativeData() if self.id_field == "id" and self.kind.startswith("GeoJSON") else None
        own = json.loads(text).get("id") if text else None
        if own is not None:
            return own
        field = self.id_field or ""
        at = feature.GetFieldIndex(field)
        if at < 0 and field.upper() == "FID":
            return feature.GetFID()
        if at < 0 or not feature.IsFieldSetAndNotNull(at):
            raise Unfit(f"it has no {field}")
        return self.value(feature, at, field)

    def types(self, layer: ogr.Layer) -> dict[str, str]:
        """The types of a layer's fields that tags don't have, as a GeoPackage names them."""
        fields = layer.GetLayerDefn()
        found = [fields.GetFieldDefn(at) for at in range(fields.GetFieldCount())]
        return {self.texts.decoded(field.GetName(), "the names of fields"): TYPES[field.GetType()] for field in found if field.GetType() in TYPES}

    def name(self, feature: ogr.Feature, at: int) -> str:
        """The name of a field."""
        return self.texts.decoded(feature.GetFieldDefnRef(at).GetName(), "the names of fields")

    def tags(self, feature: ogr.Feature) -> Tags:
        """The fields of a feature that have a value."""
        found = {}
        for at in range(feature.GetFieldCount()):
            if feature.IsFieldSetAndNotNull(at) and feature.GetFieldDefnRef(at).GetName() not in self.columns:
                name = self.name(feature, at)
                value = self.value(feature, at, name)
                if value is not None:
                    found[name] = value
        return found

    def value(self, feature: ogr.Feature, at: int, name: str) -> Value | None:
        """The value of a field as that of a tag; None if a tag has no such values."""
        field = feature.GetFieldDefnRef(at)
        kind = field.GetType()
        if kind in (ogr.OFTInteger, ogr.OFTInteger64):
            number = feature.GetFieldAsInteger64(at)
            if number in (LEAST, GREATEST):
                return self.exact(feature, name, number)
            return number != 0 if field.GetSubType() == ogr.OFSTBoolean else number
        if kind == ogr.OFTReal:
            return self.real(feature, at, name)
        if kind in (ogr.OFTDate, ogr.OFTDateTime, ogr.OFTTime):
            return moment(kind, feature.GetFieldAsDateTime(at))
        text = None if kind in DROPPED else self.texts.decoded(feature.GetFieldAsString(at), "texts")
        # A field of JSON has texts too, if its values are of several kinds.
        if text is None or (field.GetSubType() == ogr.OFSTJSON and text[:1] in ("[", "{")):
            self.notes.add(import_rules.DROPPED.format(name=name, what=DROPPED.get(kind, import_rules.LIST)))
            return None
        return self.short(text, name)

    def exact(self, feature: ogr.Feature, name: str, number: int) -> int:
        """A whole number of which GDAL keeps the least or the greatest that it has. The text of a feature of GeoJSON has all of its digits."""
        text = feature.GetNativeData()
        own = (json.loads(text).get("properties") or {}).get(name) if text else None
        if not isinstance(own, int):
            self.notes.add(f"the field {name} may have had a number beyond 64 bits, which GDAL makes {number}", row=f"row {self.row:,}")
            return number
        if not LEAST <= own <= 2 * GREATEST + 1:
            raise Unfit(f"its {name} is {own}: numbers go from -2^63 to 2^64 - 1")
        return own

    def real(self, feature: ogr.Feature, at: int, name: str) -> Value | None:
        """A whole number as a number, another one as a text."""
        number = feature.GetFieldAsDouble(at)
        if not math.isfinite(number):
            self.notes.add(f"the field {name} is dropped where it is no finite number")
            return None
        if number.is_integer() and abs(number) <= 2 ** 53:
            return int(number)
        if number.is_integer():
            self.notes.add(f"the field {name} has numbers beyond 53 bits, of which GDAL may have lost digits", row=f"row {self.row:,}")
        return feature.GetFieldAsString(at) if feature.GetFieldDefnRef(at).GetSubType() == ogr.OFSTFloat32 else repr(number)

    def short(self, text: str, name: str) -> str:
        """A text that fits into a tag, if texts are to be cut."""
        raw = text.encode()
        if not self.cuts or len(raw) <= MOST_TAG:
            return text
        self.notes.add(f"texts of {name} are cut to 1,024 bytes")
        return raw[:MOST_TAG].decode("utf-8", "ignore")


def opened(path: str, given: str, encoding: str | None, keeps_text: bool) -> tuple[gdal.Dataset, str | None]:
    """The file, which has to outlive its layers, and what GDAL says that it can't read of it. `given`: the path that a user knows. `keeps_text`: GDAL
    keeps the text of each feature of GeoJSON, as it also does where a number has more than 64 bits."""
    gdal.UseExceptions()
    gdal.PushErrorHandler("CPLQuietErrorHandler")
    said: list[tuple[int, str]] = []
    gdal.PushErrorHandler(lambda level, _, text: said.append((level, text)))
    try:
        file = gdal.OpenEx(path, gdal.OF_VECTOR, open_options=["NATIVE_DATA=YES"] if keeps_text else [])
        kind = file.GetDriver().ShortName if file is not None else None
        if kind == "GeoJSON" and not keeps_text and any("64bit" in text for _, text in said):
            file = gdal.OpenEx(path, gdal.OF_VECTOR, open_options=["NATIVE_DATA=YES"])
        # Texts of a Shapefile as they are: GDAL doesn't recode them by what the file says of its encoding.
        if encoding is not None and kind == "ESRI Shapefile":
            file = gdal.OpenEx(path, gdal.OF_VECTOR, open_options=["ENCODING="])
    except RuntimeError as fault:
        raise Unreadable(f"GDAL can't read {given}: {fault}") from fault
    finally:
        gdal.PopErrorHandler()
    if file is None:
        raise Unreadable(f"GDAL can't read {given}: {gdal.GetLastErrorMsg()}")
    return file, next((text for level, text in said if level >= gdal.CE_Failure), None)


def is_table(layer: ogr.Layer) -> bool:
    """Whether a layer has no geometry at all."""
    return layer.GetGeomType() == ogr.wkbNone


def system_of(name: str) -> osr.SpatialReference:
    """The coordinate system of a name such as `EPSG:4326`."""
    system = osr.SpatialReference()
    try:
        known = system.SetFromUserInput(name) == ogr.OGRERR_NONE
    except RuntimeError:
        known = False
    if not known:
        raise Unreadable(f"GDAL knows no coordinate system {name}")
    return system


def moment(kind: int, parts: tuple[int, int, int, int, int, float, int]) -> str:
    """A date, a time or both as ISO 8601 has them."""
    year, month, day, hour, minute, second, zone = parts
    date = f"{year:04}-{month:02}-{day:02}"
    if kind == ogr.OFTDate:
        return date
    thousandths = round(second * 1000)
    time = f"{hour:02}:{minute:02}:{thousandths // 1000:02}" + (f".{thousandths % 1000:03}" if thousandths % 1000 else "")
    if kind == ogr.OFTTime:
        return time
    # GDAL counts quarters of an hour from 100, which is UTC; 0 is unknown, 1 local.
    away = abs(zone - 100) * 15
    name = "" if zone < 2 else "Z" if zone == 100 else f"{'-' if zone < 100 else '+'}{away // 60:02}:{away % 60:02}"
    return f"{date}T{time}{name}"


def place(point: Sequence[float]) -> tuple[float, float]:
    """The point of the world of a point of Web Mercator."""
    x, y = point[:2]
    if not (math.isfinite(x) and math.isfinite(y)):
        raise Unfit("a point has no place in Web Mercator")
    return (x + HALF) / EARTH * WORLD, (HALF - y) / EARTH * WORLD


def lists_of(kind: str, geometry: ogr.Geometry) -> list:
    """The lists of a shape."""
    several = geometry.GetGeometryName().startswith("MULTI")
    parts = [geometry.GetGeometryRef(at) for at in range(geometry.GetGeometryCount())] if several else [geometry]
    if kind == "points":
        found = [place(part.GetPoint_2D(0)) for part in parts]
        if any(not -1 <= part <= WORLD for point in found for part in point):
            raise Unfit(import_rules.OUTSIDE)
        return found
    if kind == "lines":
        return [line for line in ([place(point) for point in part.GetPoints() or []] for part in parts) if line]
    return [rings for rings in (rings_of(part) for part in parts) if rings]


def rings_of(polygon: ogr.Geometry) -> list:
    """The rings of a polygon, without the last point where it repeats the first."""
    rings = [[place(point) for point in polygon.GetGeometryRef(at).GetPoints() or []] for at in range(polygon.GetGeometryCount())]
    return [ring[:-1] if len(ring) > 1 and ring[0] == ring[-1] else ring for ring in rings if ring]
