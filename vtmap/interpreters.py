"""Finds an interpreter that has a package of the system, such as GDAL's module, which Debian's /usr/bin/python3 has and others mostly don't."""
from __future__ import annotations

import importlib.util
import os
import shutil
import subprocess
import sys
from collections.abc import Sequence

from .faults import Refused
from .systems import become, is_windows

# Set for the interpreter that was found, so that it looks for no other one.
FOUND = "VTMAP_INTERPRETER"
PACKAGES = {"osgeo": ("GDAL's Python module", "python3-gdal"), "PIL": ("Pillow", "python3-pil"), "cairo": ("pycairo", "python3-cairo")}


def has(package: str) -> bool:
    """Whether this interpreter has a package."""
    return importlib.util.find_spec(package) is not None


def other(package: str) -> str | None:
    """Another interpreter that has it, or None."""
    names = [shutil.which("python3"), shutil.which("python")] if is_windows() else ["/usr/bin/python3", "/usr/local/bin/python3", shutil.which("python3")]
    for path in dict.fromkeys(filter(None, names)):
        if os.path.exists(path) and subprocess.run([path, "-c", f"import {package}"], capture_output=True, check=False).returncode == 0:
            return path
    return None


def command_of(words: Sequence[str], interpreter: str = sys.executable) -> tuple[list[str], dict[str, str]]:
    """The line that runs a command of this `vtmap`, in a clone, installed or in one file, and the environment that it needs."""
    folder = os.path.dirname(os.path.dirname(os.path.abspath(__file__)))
    places = [folder, *filter(None, os.environ.get("PYTHONPATH", "").split(os.pathsep))]
    return [interpreter, "-m", "vtmap", *words], {**os.environ, "PYTHONPATH": os.pathsep.join(places)}


def look_for(package: str, words: Sequence[str]) -> None:
    """Goes on in an interpreter that has a package, if this one hasn't. Returns if it has, or if none has. `words`: those of the command."""
    if has(package) or os.environ.get(FOUND) == package:
        return
    path = other(package)
    if path is not None:
        line, environment = command_of(words, path)
        become(line, {**environment, FOUND: package})


def need(package: str, words: Sequence[str]) -> None:
    """Goes on in an interpreter that has a package. Raises `Refused` if none has."""
    look_for(package, words)
    if not has(package):
        name, debian = PACKAGES[package]
        place = "the OSGeo4W Shell, which comes with QGIS, has it: run this there" if is_windows() else f"Debian: {debian}"
        raise Refused(f"{name} is needed ({place}), and no python3 here has it")
