"""Files that the commands read and write: those of GDAL, GeoPackages, disk files, archives, and what is kept beside an imported file."""
