"""The office's toolbox for the map of a vtserve: files in and out, QGIS, publications, backups. `python3 -m vtmap --help` lists the commands."""
import sys

VERSION = "0.2.0"
# The oldest Python that runs it: QGIS has brought it for Windows since 3.20.
OLDEST = (3, 9)
if sys.version_info < OLDEST:
    sys.exit("vtmap needs Python %d.%d or a newer one, and this is %d.%d" % (*OLDEST, *sys.version_info[:2]))
