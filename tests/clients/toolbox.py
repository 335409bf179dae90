"""The part `toolbox` of run.py: `vtmap` as a command. How it is found and installed, its common words and statuses,
the interpreter that has GDAL, what the old scripts say, and that each constant has one place."""
import os
import re
import shutil
import subprocess
import sys

from vtmap.client.client import Client

from .between import Between
from .import_stand import has_gdal, row, written
from .stand import EXAMPLES, TOP, VTMAP, Cases, Nginx, Server, curl, feature

NAMES = [
    "try",
    "import",
    "update",
    "checkout",
    "checkin",
    "wfs",
    "wmts",
    "files",
    "schema",
    "save",
    "load",
    "publish",
    "join",
    "watch",
    "maps",
    "replica",
    "takeover",
    "delete-layer",
    "qgis",
    "follow",
    "log",
    "undo",
    "at",
    "serve-at",
    "diff",
    "draw",
]
OLD = {
    "import_features.py": "vtmap import",
    "gis.py": "vtmap checkout and vtmap checkin",
    "map_backup.py": "vtmap save and vtmap load",
    "publish.sh": "vtmap publish",
    "watch.py": "vtmap watch",
    "delete_layer.py": "vtmap delete-layer",
    "qgis_project.py": "vtmap qgis",
    "follow.py": "vtmap follow",
    "draw_map.py": "vtmap draw",
}
# Numbers that have one place in the package.
ONCE = [
    r"2 \*\* 32",
    r"40075016\.68",
    r"20037508\.34",
    r"2 \*\* 63",
    r"\b262144\b",
    r"\b131072\b",
    r"\b32768\b",
    r"\b65536\b",
]


def ran(*line, words=(), **more):
    """The status of a command, and what it prints."""
    child = subprocess.run(
        line, capture_output=True, text=True, timeout=100, env={**os.environ, **dict(words)}, check=False, **more
    )
    return child.returncode, child.stdout + child.stderr


def helps(cases: Cases) -> None:
    """One help for all, and one for each."""
    code, told = ran(*VTMAP, "--help")
    cases.show(
        "toolbox: --help lists the commands",
        (code, re.findall(r"^  ([a-z-]+) {2,}", told.partition("options:")[0], re.MULTILINE)),
        (0, NAMES),
    )
    for name in NAMES:
        code, told = ran(*VTMAP, name, "--help")
        cases.show(
            f"toolbox: {name} --help",
            (code, told.startswith(f"usage: vtmap {name} "), "--url URL" in told),
            (0, True, True),
        )
    cases.show("toolbox: --version", ran(*VTMAP, "--version"), (0, "vtmap 0.2.0\n"))
    for words in ([], ["nonsense"], ["save"], ["save", "f", "--nonsense"]):
        cases.show(f"toolbox: a wrong command: {words}", ran(*VTMAP, *words)[0], 2)


def addresses(cases: Cases, folder: str) -> None:
    """The address of the server: before or after the command, by the environment, or the one that is assumed."""
    out = os.path.join(folder, "out.jsonl")
    with Server(folder, "toolbox") as server:
        curl(server.url + "/features/7", "-X", "PUT", body=feature())
        said = (0, "1 features saved\n")
        cases.show("toolbox: --url behind the command", ran(*VTMAP, "save", out, "--url", server.url), said)
        cases.show("toolbox: --url before it", ran(*VTMAP, "--url", server.url + "/", "save", out), said)
        cases.show("toolbox: VTSERVE_URL", ran(*VTMAP, "save", out, words={"VTSERVE_URL": server.url}), said)
        cases.show(
            "toolbox: --url counts before it",
            ran(*VTMAP, "save", out, "--url", server.url, words={"VTSERVE_URL": "http://127.0.0.1:1"}),
            said,
        )
        cases.show(
            "toolbox: no server there", ran(*VTMAP, "save", out, words={"VTSERVE_URL": "http://127.0.0.1:1"})[0], 3
        )
        cases.show("toolbox: no address", ran(*VTMAP, "save", out, "--url", "nonsense")[0], 2)
        file = os.path.join(folder, "out.gpkg")
        ran(*VTMAP, "checkout", file, "--url", server.url)
        code, told = ran(*VTMAP, "checkin", file, words={"VTSERVE_URL": "http://127.0.0.1:1"})
        cases.show(
            "toolbox: checkin asks the server that was checked out of",
            (code, told),
            (0, "0 new, 0 changed, 0 deleted, 0 conflicts, 0 refused\n"),
        )


def listings(cases: Cases, folder: str) -> None:
    """A list of a large map is a few requests, which nginx doesn't log; of an older server one for each feature."""
    nginx = shutil.which("nginx", path=os.environ.get("PATH", "") + ":/usr/sbin")
    out, seen, lost = os.path.join(folder, "listed.jsonl"), [], set()
    with Server(folder, "listings", 65536) as server:
        for at in range(0, 600, 60):
            changes = ",".join(
                f'{{"put":{number},"feature":{feature(tags={"name": str(number)})}}}' for number in range(at, at + 60)
            )
            curl(server.url + "/edits", "-X", "POST", body=f'{{"changes":[{changes}]}}')

        def loses(_, path):
            if path in lost or not path.startswith("/admin/features/page/"):
                return False
            lost.add(path)
            return True

        def listed(name, **more):
            with Between(server, **more) as between:
                told = ran(*VTMAP, "save", out, "--url", between.url)
            seen.append(len(between.asked))
            cases.show(f"toolbox: a list of 600 features, {name}", told, (0, "600 features saved\n"))

        listed("by pages")
        listed(
            "of a server without pages",
            instead=lambda _, path: (404, b"NotFound\n") if path.startswith("/admin/features/page/") else None,
        )
        cases.show("toolbox: and how many requests that takes", (seen[0] < 5, seen[1] > 600), (True, True))
        listed("whose pages are each lost once", loses=loses)
        cases.show("toolbox: and how many requests that takes", seen[2] - seen[0], len(lost))
        client = Client(server.url)
        found = [(number, client.feature(number) == one) for number, one in client.features()]
        client.close()
        cases.show(
            "toolbox: other requests while a list is read", found == [(number, True) for number in range(600)], True
        )
        if nginx:
            with Nginx(nginx, folder, server) as front:
                ran(*VTMAP, "save", out, "--url", front.url)
                curl(front.url + "/features/7")
                with open(os.path.join(front.folder, "access.log"), encoding="utf-8") as file:
                    lines = file.read().splitlines()
            # A list is between two looks at the number of the last edit.
            cases.show(
                "toolbox: nginx logs no list of features",
                [line.split('"')[1].split()[1] for line in lines],
                ["/admin/status", "/admin/status", "/features/7"],
            )


def refusals(cases: Cases, folder: str) -> None:
    """What a proxy says in HTML is told without its tags."""
    page = b"<html>\r\n<head><title>418 I'm a teapot</title></head>\r\n<body>..</body></html>\r\n"
    path = os.path.join(folder, "one.jsonl")
    with open(path, "w", encoding="utf-8") as file:
        file.write('{"feature":%s,"id":7}\n' % feature())
    with Server(folder, "refusals") as server:
        with Between(server, instead=lambda method, _: (418, page) if method == "POST" else None) as between:
            told = ran(*VTMAP, "load", path, "--url", between.url)
        cases.show("toolbox: a refusal in HTML", told, (1, "feature 7: 418 I'm a teapot\n"))
        with Between(server, instead=lambda *_: (418, page)) as between:
            told = ran(*VTMAP, "publish", "--url", between.url)
        cases.show("toolbox: a publication that is refused so", told, (1, "/publish/begin: 418 I'm a teapot\n"))


def places(cases: Cases, folder: str) -> None:
    """In a clone and installed, from any folder."""
    installed = os.path.join(folder, "usr")
    shutil.copytree(os.path.join(TOP, "vtmap"), os.path.join(installed, "lib", "vtserve", "vtmap"))
    os.makedirs(os.path.join(installed, "bin"))
    shutil.copy(os.path.join(TOP, "bin", "vtmap"), os.path.join(installed, "bin", "vtmap"))
    cases.show(
        "toolbox: as it is installed",
        ran(os.path.join(installed, "bin", "vtmap"), "--version", cwd=folder),
        (0, "vtmap 0.2.0\n"),
    )
    link = os.path.join(folder, "link")
    os.symlink(os.path.join(installed, "bin", "vtmap"), link)
    cases.show("toolbox: by a link", ran(link, "--version", cwd=folder), (0, "vtmap 0.2.0\n"))
    cases.show(
        "toolbox: python3 -m vtmap in a clone",
        ran(sys.executable, "-m", "vtmap", "--version", cwd=TOP),
        (0, "vtmap 0.2.0\n"),
    )


def one_file(cases: Cases, folder: str) -> None:
    """vtmap.pyz: anywhere, twice the same, by a link, and by a Python that is too old."""
    paths = [os.path.join(folder, name) for name in ("vtmap.pyz", "again.pyz")]
    for path in paths:
        cases.show("toolbox: tools/pyz.py", ran(sys.executable, os.path.join(TOP, "tools", "pyz.py"), path), (0, ""))
    with open(paths[0], "rb") as one, open(paths[1], "rb") as other:
        cases.show("toolbox: the same sources make the same file", one.read() == other.read(), True)
    # -I: no package beside it, none of PYTHONPATH.
    cases.show("toolbox: vtmap.pyz", ran(sys.executable, "-I", paths[0], "--version", cwd=folder), (0, "vtmap 0.2.0\n"))
    cases.show("toolbox: it runs by itself", ran(paths[0], "--version", cwd=folder), (0, "vtmap 0.2.0\n"))
    for name in NAMES:
        code, told = ran(sys.executable, "-I", paths[0], name, "--help", cwd=folder)
        cases.show(f"toolbox: vtmap.pyz {name} --help", (code, told.startswith(f"usage: vtmap {name} ")), (0, True))
    script = (
        "import runpy, sys; sys.version_info, sys.argv = (3, 8, 10), sys.argv[1:]; runpy.run_path(sys.argv[0],"
        " run_name='__main__')"
    )
    cases.show(
        "toolbox: an old Python",
        ran(sys.executable, "-c", script, paths[0]),
        (1, "vtmap needs Python 3.9 or a newer one, and this is 3.8\n"),
    )


def interpreters(cases: Cases, folder: str) -> None:
    """An interpreter without GDAL finds the one that has it; where none has, that is said."""
    if not has_gdal(cases):
        return
    path = written(folder, "one.geojson", [row("Point", [7, 54], name="one")])
    with Server(folder, "interpreters") as server:
        bare = os.path.join(folder, "bare")
        os.mkdir(bare)
        # -S and -I: an interpreter without the packages of the system.
        with open(os.path.join(bare, "python3"), "w", encoding="utf-8") as script:
            script.write(f'#!/bin/sh\nexec {sys.executable} -S "$@"\n')
        os.chmod(os.path.join(bare, "python3"), 0o755)
        line = [os.path.join(bare, "python3"), os.path.join(TOP, "bin", "vtmap"), "import", path, "--url", server.url]
        code, told = ran(*line)
        cases.show(
            "toolbox: an interpreter without GDAL finds one that has it",
            (code, told.splitlines()[-1]),
            (0, "1 taken, 0 refused"),
        )
        code, told = ran(
            line[0],
            os.path.join(folder, "vtmap.pyz"),
            "import",
            path,
            "--first",
            "5",
            "--layer",
            "two",
            "--url",
            server.url,
        )
        cases.show("toolbox: so does vtmap.pyz", (code, told.splitlines()[-1]), (0, "1 taken, 0 refused"))
        code, told = ran(*line, words={"VTMAP_INTERPRETER": "osgeo"})
        said = "GDAL's Python module is needed (Debian: python3-gdal), and no python3 here has it\n"
        cases.show("toolbox: and says so where there is none", (code, told), (1, said))


def old_names(cases: Cases) -> None:
    """What stood in examples/ says where it went."""
    for name, now in OLD.items():
        code, told = ran(
            "bash" if name.endswith(".sh") else sys.executable, os.path.join(EXAMPLES, name), "some", "words"
        )
        cases.show(
            f"toolbox: {name} says where it went", (code, told.startswith(f"examples/{name} is now {now}")), (2, True)
        )


def constants(cases: Cases) -> None:
    """Each constant once."""
    texts = {}
    for folder, _, names in os.walk(os.path.join(TOP, "vtmap")):
        for name in names:
            if name.endswith(".py"):
                with open(os.path.join(folder, name), encoding="utf-8") as file:
                    texts[os.path.join(folder, name)] = re.sub(
                        r'""".*?"""|#.*|"[^"\n]*"', "", file.read(), flags=re.DOTALL
                    )
    found = {number: sum(len(re.findall(number, text)) for text in texts.values()) for number in ONCE}
    cases.show("toolbox: each constant once", {number: count for number, count in found.items() if count > 1}, {})


def toolbox(cases: Cases, folder: str) -> None:
    """`vtmap` as a command."""
    place = os.path.join(folder, "toolbox")
    os.mkdir(place)
    helps(cases)
    for part in (addresses, listings, refusals, places, one_file, interpreters):
        part(cases, place)
    old_names(cases)
    constants(cases)
    shutil.rmtree(place)
