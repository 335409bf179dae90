"""Rules of the import that the page shares, which reads files too: how columns of points are named, and the words for what is dropped or refused.

`vtmap/client/refusals.py` writes them to web/import_rules.js. Needs no package.
"""
# Columns of x and y of a table, as they are usually named; which of them are longitude and latitude.
DEGREES = [("lon", "lat"), ("lng", "lat"), ("long", "lat"), ("longitude", "latitude")]
COLUMNS = [*DEGREES, ("x", "y"), ("easting", "northing")]
# A number in them, with a decimal point or comma.
NUMBER = r"[+-]?([0-9]+([.,][0-9]*)?|[.,][0-9]+)([eE][+-]?[0-9]+)?"
# What a text is read as that isn't UTF-8, in a file that names no encoding.
GUESS = "cp1252"
# Words with places for what they are about.
HEIGHTS = "heights (Z) are dropped"
DROPPED = "the field {name} is dropped: {what} is no value of a tag"
LIST = "a list or an object"
NOWHERE = "they have no geometry, and aren't put"
NO_KIND = "a {kind} is no kind of geometry that a feature has"
OUTSIDE = "a point is outside of the world (180 degrees east and west, 85.05 north and south)"
TWO_NUMBERS = "{told}: two numbers are needed, as 7.25 or 7,25, without separators of thousands"
NO_COLUMNS = "{path} has no geometry: name the columns of its points by --x and --y (it has {names})"
NOT_UTF8 = "{what} aren't UTF-8 and are read as {encoding}; --encoding names another encoding"
# Those that the page shows, by their names there.
SHARED = {"heights": HEIGHTS, "dropped": DROPPED, "list": LIST, "nowhere": NOWHERE, "noKind": NO_KIND, "outside": OUTSIDE, "twoNumbers": TWO_NUMBERS}
