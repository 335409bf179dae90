"""Where the scripts that were in this folder went, for one version."""
import os
import sys

COMMANDS = {
    "import_features.py": "vtmap import, or vtmap update for a file that was imported before (--update, --replace)",
    "gis.py": "vtmap checkout and vtmap checkin",
    "map_backup.py": "vtmap save and vtmap load",
    "watch.py": "vtmap watch --url URL",
    "delete_layer.py": "vtmap delete-layer",
    "qgis_project.py": "vtmap qgis",
    "follow.py": "vtmap follow --url URL",
    "draw_map.py": "vtmap draw",
}


def moved(path):
    """Says where a script went, and ends the process as for a wrong command."""
    name = os.path.basename(path)
    print(f"examples/{name} is now {COMMANDS[name]}. In a clone: bin/vtmap, or python3 -m vtmap; `vtmap --help` lists the commands", file=sys.stderr)
    sys.exit(2)
