#!/usr/bin/env python3
"""What clients of other makers meet: `vtserve serve` driven by curl, by GDAL, by nginx with docs/nginx.conf, and by
wrk.

    python3 tests/clients/run.py [PROGRAM [PART..]]

PROGRAM is crates/vtserve/out/vtserve, which `rt run` leaves there.

It prints `ok` or `DIFFERS` for each case, with what was wanted, and ends with 1 if one differs. A client that isn't
installed is left out, and a line says so. With PART only these parts run (`large`, `import`, `disk-full`, `kills`,
..; a wrong name lists them). Wanted values are those of docs/HTTP.md and docs/FORMATS.md and of the worked tile
there, or are computed here from the standards, never taken from the program. Disks and folders are scratch; ports
are free ones of 127.0.0.1, and of the kept nginx configuration the two ports alone are changed, and what a case
names. nginx's refusal of foreign addresses is tried as 127.0.0.2.
"""
import os
import shutil
import sys
import tempfile

sys.path[0] = os.path.join(os.path.dirname(os.path.abspath(__file__)), "..")
from clients.admin import admin  # noqa: E402
from clients.attachments import attachments, page_photos  # noqa: E402
from clients.attachments import by_qgis as files_qgis  # noqa: E402
from clients.batches import batches  # noqa: E402
from clients.checkins import checkins  # noqa: E402
from clients.conditions import tags  # noqa: E402
from clients.confirmed import confirmed  # noqa: E402
from clients.desktop import desktop  # noqa: E402
from clients.direct import direct  # noqa: E402
from clients.doors import doors  # noqa: E402
from clients.editors import editors  # noqa: E402
from clients.encodings_of_files import encodings  # noqa: E402
from clients.endings import endings  # noqa: E402
from clients.foreign import foreign  # noqa: E402
from clients.front import in_front  # noqa: E402
from clients.full_disks import disk_full  # noqa: E402
from clients.hang_ups import hang_ups, shrinking  # noqa: E402
from clients.histories import history  # noqa: E402
from clients.imports import imports  # noqa: E402
from clients.joins import joins  # noqa: E402
from clients.killed_servers import kills  # noqa: E402
from clients.large_imports import large  # noqa: E402
from clients.lost_replies import lost_replies  # noqa: E402
from clients.meanwhile import meanwhile  # noqa: E402
from clients.ogc import ogc  # noqa: E402
from clients.operation import operation  # noqa: E402
from clients.outsiders import outsiders  # noqa: E402
from clients.page_files import page_files  # noqa: E402
from clients.page_hands import page_hands  # noqa: E402
from clients.page_history import page_history  # noqa: E402
from clients.page_print import page_print  # noqa: E402
from clients.page_schema import page_schema  # noqa: E402
from clients.page_tools import page_tools  # noqa: E402
from clients.pages import page  # noqa: E402
from clients.past import past  # noqa: E402
from clients.past_maps import past_maps  # noqa: E402
from clients.pictures import by_qgis, wmts  # noqa: E402
from clients.refusals import refused_features, refused_requests  # noqa: E402
from clients.replicas import replicas  # noqa: E402
from clients.round_trips import round_trips  # noqa: E402
from clients.routes import routes  # noqa: E402
from clients.running import full, kept_connections, restarts  # noqa: E402
from clients.schemas import schema  # noqa: E402
from clients.screens import screens  # noqa: E402
from clients.several_maps import maps  # noqa: E402
from clients.short_files import short_files  # noqa: E402
from clients.stand import Cases  # noqa: E402
from clients.standards import standards  # noqa: E402
from clients.standby import long_follow, standby  # noqa: E402
from clients.steps import steps  # noqa: E402
from clients.surveys import gdal  # noqa: E402
from clients.takeover import takeover  # noqa: E402
from clients.tellings import tellings  # noqa: E402
from clients.three_ways import three_ways  # noqa: E402
from clients.told import told  # noqa: E402
from clients.toolbox import toolbox  # noqa: E402
from clients.trail import trail  # noqa: E402
from clients.tries import tries  # noqa: E402
from clients.units import units  # noqa: E402
from clients.updates import updates  # noqa: E402
from clients.wfs import wfs  # noqa: E402
from clients.wfs_deaths import wfs_deaths  # noqa: E402
from clients.wfs_far import wfs_far  # noqa: E402
from clients.wfs_hostile import wfs_hostile  # noqa: E402
from clients.wfs_maps import wfs_maps  # noqa: E402
from clients.wfs_qgis import wfs_qgis  # noqa: E402
from clients.wfs_random import wfs_random  # noqa: E402
from clients.wfs_tables import wfs_tables  # noqa: E402
from clients.windows import windows  # noqa: E402


def main():
    if not shutil.which("curl"):
        sys.exit("no curl: nothing is tried")
    parts = {
        "routes": routes,
        "tags": tags,
        "requests": refused_requests,
        "features": refused_features,
        "full": full,
        "restarts": restarts,
        "kept": kept_connections,
        "direct": direct,
        "screens": screens,
        "page": page,
        "page-tools": page_tools,
        "page-hands": page_hands,
        "page-files": page_files,
        "page-history": page_history,
        "page-print": page_print,
        "page-schema": page_schema,
        "page-photos": page_photos,
        "desktop": desktop,
        "checkins": checkins,
        "lost-replies": lost_replies,
        "gdal": gdal,
        "large": large,
        "import": imports,
        "short-files": short_files,
        "encodings": encodings,
        "round-trips": round_trips,
        "updates": updates,
        "three-ways": three_ways,
        "wfs": wfs,
        "wfs-deaths": wfs_deaths,
        "wfs-hostile": wfs_hostile,
        "wfs-maps": wfs_maps,
        "wfs-far": wfs_far,
        "told": told,
        "foreign": foreign,
        "wfs-random": wfs_random,
        "wfs-tables": wfs_tables,
        "wfs-qgis": wfs_qgis,
        "schema": schema,
        "ogc": ogc,
        "files": attachments,
        "files-qgis": files_qgis,
        "wmts": wmts,
        "wmts-qgis": by_qgis,
        "standards": standards,
        "operation": operation,
        "admin": admin,
        "batches": batches,
        "editors": editors,
        "toolbox": toolbox,
        "endings": endings,
        "doors": doors,
        "steps": steps,
        "join": joins,
        "meanwhile": meanwhile,
        "hang-ups": hang_ups,
        "shrinking": shrinking,
        "standby": standby,
        "long-follow": long_follow,
        "confirmed": confirmed,
        "takeover": takeover,
        "replicas": replicas,
        "trail": trail,
        "past": past,
        "history": history,
        "serve-at": past_maps,
        "run": tellings,
        "disk-full": disk_full,
        "kills": kills,
        "nginx": in_front,
        "outsiders": outsiders,
        "units": units,
        "maps": maps,
        "windows": windows,
        "try": tries,
    }
    words = sys.argv[2:]
    if not set(words) <= set(parts):
        sys.exit(f"parts are {', '.join(parts)}")
    cases = Cases()
    with tempfile.TemporaryDirectory() as scratch:
        os.chmod(scratch, 0o755)
        for name, part in parts.items():
            if name in words or not words:
                part(cases, os.path.realpath(scratch))
    print(f"{cases.seen} cases, {cases.differ} differ")
    return 1 if cases.differ else 0


if __name__ == "__main__":
    sys.exit(main())
