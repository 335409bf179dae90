"""The gateway of `vtmap wfs`: the live map as a WFS that QGIS edits, and as OGC API Features that others read."""
