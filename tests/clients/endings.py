"""The part `endings` of run.py: how the commands of vtmap end without a server, with a wrong address or path, where
nothing can be written, and by Ctrl-C. None ends with a traceback, and none replaces what is no regular file."""
import os
import re
import resource
import signal
import socket
import stat
import subprocess
import time

from .import_stand import has_gdal
from .stand import EXAMPLES, SYSTEM_PYTHON, VTMAP, Cases, Server, curl, feature, free_port

SURVEY = os.path.join(EXAMPLES, "survey.geojson")
WRONG = ["nonsense", "ftp://127.0.0.1", "http://", "http://127.0.0.1:x"]


def has_pillow():
    return subprocess.run([SYSTEM_PYTHON, "-c", "import PIL"], capture_output=True).returncode == 0


def commands(cases, folder):
    """Each command with its words, and the status that it ends with if the server doesn't answer. `URL` stands for
    the address."""
    saved = os.path.join(folder, "saved.jsonl")
    with open(saved, "w", encoding="utf-8") as file:
        file.write('{"feature":%s,"id":7}\n' % feature())
    return [
        (2, ["watch", "--url", "URL"]),
        (3, ["publish", "--url", "URL"]),
        (3, ["delete-layer", "survey", "--url", "URL"]),
        (3, ["save", os.path.join(folder, "map.geojson"), "--url", "URL"]),
        (3, ["load", saved, "--url", "URL"]),
        (3, ["checkout", os.path.join(folder, "map.gpkg"), "--url", "URL"]),
        (3, ["qgis", os.path.join(folder, "without.qgs"), "--url", "URL"]),
        *([(3, ["draw", os.path.join(folder, "map.png"), "--zoom", "1", "--url", "URL"])] if has_pillow() else []),
        *([(3, ["import", SURVEY, "--layer", "survey", "--url", "URL"])] if has_gdal(cases) else []),
    ]


def line_of(words, url):
    """The command line of a command, or of a script of examples/."""
    begin = [SYSTEM_PYTHON, os.path.join(EXAMPLES, words[0])] if words[0].endswith(".py") else [*VTMAP, words[0]]
    return [*begin, *(url if word == "URL" else word for word in words[1:])]


def ended(words, url="", stdout=subprocess.PIPE, most=None):
    """The status of a script, and the lines that it printed. `most` are the bytes that a file may have."""
    words = line_of(words, url)
    limited = most and (lambda: resource.setrlimit(resource.RLIMIT_FSIZE, (most, most)))
    child = subprocess.run(
        words,
        stdin=subprocess.DEVNULL,
        stdout=stdout,
        stderr=subprocess.PIPE,
        text=True,
        preexec_fn=limited,
        timeout=100,
    )
    return child.returncode, ((child.stdout or "") + child.stderr).splitlines()


def shows(cases, name, found, status, said):
    """Shows the status of a script, and whether it said this in a few lines."""
    code, lines = found
    is_plain = (
        len(lines) <= 5
        and not any("Traceback" in line for line in lines)
        and re.search(said, "\n".join(lines)) is not None
    )
    cases.show(f"endings: {name}", (code, is_plain or lines), (status, True))


def interrupted(words):
    """The status and the lines of a script that gets Ctrl-C while it waits for a reply."""
    with socket.create_server(("127.0.0.1", 0)) as listener:
        url = f"http://127.0.0.1:{listener.getsockname()[1]}"
        words = line_of(words, url)
        child = subprocess.Popen(
            words, stdin=subprocess.DEVNULL, stdout=subprocess.PIPE, stderr=subprocess.PIPE, text=True
        )
        listener.settimeout(60)
        with listener.accept()[0] as stream:
            stream.recv(1)
            time.sleep(0.1)
            child.send_signal(signal.SIGINT)
            told, faults = child.communicate(timeout=60)
    return child.returncode, (told + faults).splitlines()


def without_a_server(cases: Cases, folder: str) -> None:
    """No server, and no address of one."""
    url = f"http://127.0.0.1:{free_port()}"
    for status, words in commands(cases, folder):
        shows(cases, f"{words[0]} without a server", ended(words, url), status, "refused")
        for wrong in WRONG:
            code, lines = ended(words, wrong)
            is_plain = not any("Traceback" in line for line in lines)
            cases.show(
                f"endings: {words[0]} with the address {wrong}", (code in (1, 2, 3), is_plain or lines), (True, True)
            )
        # A publication is awaited: it is cancelled then.
        if words[0] != "publish":
            shows(cases, f"{words[0]} and Ctrl-C", interrupted(words), 130, "interrupted")


def full_output(cases, folder, url):
    """Where standard output can't be written."""
    with open("/dev/full", "wb") as device:
        save = ["save", os.path.join(folder, "m"), "--url", "URL"]
        for words in [["watch", "--url", "URL"], ["delete-layer", "none", "--url", "URL"], ["town.py"], save]:
            shows(
                cases,
                f"{words[0]} whose output is full",
                ended(words, url, device),
                3 if words[0] == "watch" else 1,
                "No space left on device",
            )


def unwritable(cases, folder, url):
    """Where a file can't be written, or isn't to be replaced."""
    nowhere, small, pipe = (os.path.join(folder, name) for name in ("none/file", "small", "pipe"))
    os.mkfifo(pipe)
    there = ["--maxzoom", "2", "--centre", "7,54"]
    rows = [
        ("vtmap save", 1, lambda path: ["save", path, "--url", "URL"]),
        ("vtmap checkout", 1, lambda path: ["checkout", path, "--url", "URL"]),
        ("qgis", 1, lambda path: ["qgis", path, *there, "--url", "URL"]),
        ("vtmap watch --metrics", 3, lambda path: ["watch", "--url", "URL", "--metrics", path]),
        ("vtmap watch --state", 3, lambda path: ["watch", "--url", "URL", "--state", path]),
        *([("draw", 1, lambda path: ["draw", path, "--zoom", "1", "--url", "URL"])] if has_pillow() else []),
    ]
    for name, status, words in rows:
        shows(cases, f"{name} into no folder", ended(words(nowhere), url), status, "No such file|unable to open")
        shows(
            cases, f"{name} of a file that can't grow", ended(words(small), url, most=8), status, "too large|full|I/O"
        )
        if not name.startswith("draw"):
            shows(cases, f"{name} over a pipe", ended(words(pipe), url), status, "no regular file")
    cases.show("endings: the pipe is one still", stat.S_ISFIFO(os.stat(pipe).st_mode), True)


def there_already(cases, folder, url):
    """Where a file is there already: it is replaced only if that is asked for, and not by a part."""
    path = os.path.join(folder, "mine.qgs")
    words = ["qgis", path, "--maxzoom", "2", "--centre", "7,54", "--url", "URL"]
    with open(path, "w", encoding="utf-8") as file:
        file.write("mine")
    shows(
        cases,
        "vtmap qgis over a file that is there",
        ended(words, url),
        1,
        f"{path} exists: give --force to write it anew",
    )
    shows(
        cases, "vtmap qgis --force of a file that can't grow", ended([*words, "--force"], url, most=8), 1, "too large"
    )
    with open(path, encoding="utf-8") as file:
        cases.show("endings: the file is as it was", file.read(), "mine")
    shows(cases, "vtmap qgis --force", ended([*words, "--force"], url), 0, "type=xyz")
    with open(path, encoding="utf-8") as file:
        cases.show("endings: the file is another one", file.read().startswith("<!DOCTYPE qgis"), True)


def wrong_paths(cases, folder, url):
    """Where a file isn't there, or is another one."""
    nowhere, ids = os.path.join(folder, "none", "file"), os.path.join(folder, "ids")
    with open(ids, "w", encoding="utf-8") as file:
        file.write('{"mine": 1}')
    for name, status, words in [
        ("vtmap load of no file", 1, ["load", nowhere, "--url", "URL"]),
        ("vtmap load of a folder", 1, ["load", folder, "--url", "URL"]),
        ("vtmap save of no disk", 1, ["save", nowhere, "--disk", nowhere]),
        ("vtmap save of another file", 1, ["save", os.path.join(folder, "m"), "--disk", SURVEY]),
        ("vtmap checkin of no file", 1, ["checkin", nowhere]),
        ("vtmap checkin of another file", 1, ["checkin", SURVEY]),
        ("ids that are none", 2, ["delete-layer", "p", "--numbers", "x", "--url", "URL"]),
        *(
            [
                ("an import of no file", 1, ["import", nowhere, "--url", "URL"]),
                (
                    "an import whose --ids is another file",
                    1,
                    ["import", SURVEY, "--id", "name", "--ids", ids, "--url", "URL"],
                ),
            ]
            if has_gdal(cases)
            else []
        ),
    ]:
        shows(cases, name, ended(words, url), status, "")
    with open(ids, encoding="utf-8") as file:
        cases.show("endings: that file is as it was", file.read(), '{"mine": 1}')


def endings(cases: Cases, folder: str) -> None:
    without_a_server(cases, folder)
    with Server(folder, "endings") as server:
        curl(server.url + "/features/7", "-X", "PUT", body=feature())
        for part in (full_output, unwritable, there_already, wrong_paths):
            part(cases, folder, server.url)
