"""The part `encodings` of run.py: texts of Shapefiles and of tables of Excel in the encodings that offices have, none
of which loses a letter.

The files are made by ogr2ogr and by hand; wanted texts are those that were written.
"""
import os
import subprocess

from .import_stand import has_gdal, imported, row, world, written
from .stand import Cases, Server
from .updates import listed

TEXTS = ["Café", "Fluß", "Straße Süd", "plain", "Grün"]
GUESSED = "aren't UTF-8 and are read as cp1252"
# A Shapefile's encoding for ogr2ogr, what of it the file says (its .cpg, the mark in its .dbf, or nothing), and whether
# it has to be guessed.
SHAPEFILES = [
    ("UTF-8", "cpg", None, False),
    ("UTF-8", "nothing", None, False),
    ("CP1252", "cpg", None, False),
    ("CP1252", "nothing", None, True),
    ("CP1252", "mark", 0x57, False),
    ("ISO-8859-15", "cpg", None, False),
    ("CP850", "mark", 0x02, False),
    ("CP1250", "mark", 0xC8, False),
]
# What Excel calls the form, the encoding, how cells are separated, and the words that the import needs for it.
TABLES = [
    ("CSV UTF-8", "utf-8-sig", ";", []),
    ("CSV", "cp1252", ";", []),
    ("CSV with commas", "cp1252", ",", []),
    ("CSV (Macintosh)", "mac_roman", ";", ["--encoding", "mac_roman"]),
    ("CSV (MS-DOS)", "cp850", ";", ["--encoding", "cp850"]),
    ("Unicode text", "utf-16", "\t", []),
]


def names(server, layer):
    """The names of the features of a layer, in ascending order of ids."""
    return [one["tags"].get("name") for _, one in sorted(listed(server).items()) if one["layer"] == layer]


def shapefile(folder, name, texts, encoding, says, mark=None, width=80):
    """A Shapefile with these names."""
    source = written(folder, name + ".geojson", [row("Point", [10, 50], name=text) for text in texts])
    made = os.path.join(folder, name + ".shp")
    words = ["-lco", f"ENCODING={encoding}", "-sql", f'SELECT CAST(name AS character({width})) AS name FROM "{name}"']
    subprocess.run(
        ["ogr2ogr", "-f", "ESRI Shapefile", *words, made, source, "-nln", name], check=True, capture_output=True
    )
    if says != "cpg" and os.path.exists(made[:-4] + ".cpg"):
        os.remove(made[:-4] + ".cpg")
    with open(made[:-4] + ".dbf", "r+b") as file:
        file.seek(29)
        file.write(bytes([mark or 0]))
    return made


def shapefiles(cases, folder, server):
    """Each encoding of a Shapefile."""
    for at, (encoding, says, mark, is_guessed) in enumerate(SHAPEFILES):
        texts = [*TEXTS, "10 € Pfand"] if encoding in ("CP1252", "ISO-8859-15") else TEXTS
        code, lines = imported(shapefile(folder, f"s{at}", texts, encoding, says, mark), server.url)
        found = code, names(server, f"s{at}"), any(GUESSED in line for line in lines)
        cases.show(f"encodings: a Shapefile in {encoding}, which says {says}", found, (0, texts, is_guessed))
    code, lines = imported(shapefile(folder, "wrong", TEXTS, "CP1252", "nothing"), server.url, "--encoding", "cp850")
    cases.show("encodings: --encoding is taken as it is", (code, names(server, "wrong")[0]), (0, "CafÚ"))


def cut_texts(cases, folder, server):
    """Texts that a program cut within a letter, at the width of a field of 8 bytes, and others that only look so."""
    def raw(name, texts):
        """A Shapefile whose .dbf has these bytes."""
        made = shapefile(folder, name, ["x" * 8] * len(texts), "UTF-8", "nothing", width=8)
        with open(made[:-4] + ".dbf", "r+b") as file:
            whole = file.read()
            for text in texts:
                whole = whole.replace(b"x" * 8, text.ljust(8), 1)
            file.seek(0)
            file.write(whole)
        return made

    rows = [
        (
            "cut UTF-8, and a letter elsewhere",
            [b"1234567\xc3", "Süd".encode()],
            ["1234567", "Süd"],
            "the file ends them within a letter",
        ),
        (
            "cut UTF-8, and a letter in the same",
            [b"\xc3\xbc23456\xc3"],
            ["ü23456"],
            "the file ends them within a letter",
        ),
        ("Windows-1252 that fills the field", [b"1234567\xe9", b"plain"], ["1234567é", "plain"], GUESSED),
        ("Windows-1252 shorter than the field", [b"Caf\xe9", b"1234567\xc3"], ["Café", "1234567Ã"], GUESSED),
        (
            "one of Windows-1252 among UTF-8",
            ["Süd".encode(), b"Flu\xdf", b"1234567\xc3"],
            ["Süd", "Fluß", "1234567Ã"],
            GUESSED,
        ),
    ]
    for at, (name, texts, wanted, said) in enumerate(rows):
        code, lines = imported(raw(f"cut{at}", texts), server.url)
        cases.show(
            f"encodings: {name}",
            (code, names(server, f"cut{at}"), any(said in line for line in lines)),
            (0, wanted, True),
        )


def tables(cases, folder, server):
    """Each form in which Excel saves a table, with decimal commas."""
    for at, (name, encoding, mark, words) in enumerate(TABLES):
        path = os.path.join(folder, f"table{at}.csv")
        lines = [["name", "lon", "lat", "breite"], *([text, "7,5", "54,5", "1,25"] for text in TEXTS)]
        cells = (mark.join(f'"{cell}"' if mark in cell else cell for cell in line) for line in lines)
        with open(path, "w", encoding=encoding, newline="\r\n") as file:
            file.write("\n".join(cells) + "\n")
        code, _ = imported(path, server.url, *words)
        found = [one for _, one in sorted(listed(server).items()) if one["layer"] == f"table{at}"]
        is_there = all(abs(a - b) <= 1 for one in found for a, b in zip(one["geometry"]["points"][0], world(7.5, 54.5)))
        tags = [one["tags"] for one in found]
        cases.show(
            f"encodings: {name} of Excel",
            (code, is_there, tags),
            (0, True, [{"name": text, "breite": "1,25"} for text in TEXTS]),
        )
    path = os.path.join(folder, "thousands.csv")
    with open(path, "w", encoding="utf-8") as file:
        file.write("name;RW;HW\na;402.861,31;6.040.189,51\nb;402861,31;6040189,51\nc;;\n")
    code, lines = imported(path, server.url, "--x", "RW", "--y", "HW", "--crs", "EPSG:25832", "--first", "900")
    refused = (
        "feature 900 (row 1) refused: not sent: its RW is '402.861,31' and its HW is '6.040.189,51': two numbers are"
        " needed"
    )
    found = code, any(line.startswith(refused) for line in lines), names(server, "thousands")
    cases.show(
        "encodings: a number with separators of thousands is refused, and one without a place is none",
        found,
        (1, True, ["b"]),
    )


def encodings(cases: Cases, folder: str) -> None:
    """Files in the encodings of offices."""
    if not has_gdal(cases):
        return
    place = os.path.join(folder, "encodings")
    os.mkdir(place)
    with Server(place, "encodings", 65536) as server:
        for part in (shapefiles, cut_texts, tables):
            part(cases, place, server)
