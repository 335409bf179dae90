"""The part `files` of run.py: photos and files of features, which `vtmap wfs --files` keeps; `vtmap files`, `save`,
`load` and `watch` know them.

Hashes are those of hashlib over the bytes that are sent.
"""
import hashlib
import json
import os
import re
import shutil
import subprocess

from .browser import Browser
from .gateways import Gateway, Gis, feature_at, point
from .page_tools import image
from .stand import SYSTEM_PYTHON, TOP, VTMAP, Cases, Nginx, Server, curl, feature, field, status_of

JPEG, PNG = b"\xff\xd8\xff\xe0\0\x10JFIF" + b"\0" * 100, image((1, 2, 3))
PDF, GIF, WEBP = b"%PDF-1.4\n" + b"x" * 100, b"GIF89a" + b"\0" * 50, b"RIFF\x20\0\0\0WEBPVP8 " + b"\0" * 20
# What a browser would run, or what only says that it is a picture.
HOSTILE = {
    "HTML": b"<!doctype html><script>alert(1)</script>",
    "SVG": b'<svg xmlns="http://www.w3.org/2000/svg" onload="alert(1)"/>',
    "XML before SVG": b'<?xml version="1.0"?><svg xmlns="http://www.w3.org/2000/svg"/>',
    "nothing": b"",
    "a beginning of JPEG": b"\xff\xd8",
    "a blank before PDF": b" %PDF-1.4",
    "RIFF of another kind": b"RIFF\x20\0\0\0AVI LIST",
    "a script": b"#!/bin/sh\n",
}


def path_of(content, end):
    """The path that a file has to have."""
    return f"files/{hashlib.sha256(content).hexdigest()}.{end}"


def sent(url, content, *words):
    """The reply to a file that is sent."""
    child = subprocess.run(
        ["curl", "-s", "-i", "--max-time", "60", "-X", "POST", *words, "--data-binary", "@-", url],
        input=content,
        capture_output=True,
        check=False,
    )
    head, _, text = child.stdout.replace(b"HTTP/1.1 100 Continue\r\n\r\n", b"").partition(b"\r\n\r\n")
    first, *fields = head.decode().split("\r\n")
    return first, [tuple(one.split(": ", 1)) for one in fields], text


def put(url, content, *words):
    """The same by PUT."""
    return sent(url, content, "-X", "PUT", *words)


def ran(*words, status=0):
    """The lines that a command prints, with its status if that isn't the usual one."""
    child = subprocess.run([*VTMAP, *words], capture_output=True, text=True, check=False, timeout=120)
    lines = (child.stdout + child.stderr).splitlines()
    return lines if child.returncode == status else [f"status {child.returncode}", *lines]


def attachments(cases: Cases, folder: str) -> None:
    """All of it."""
    folder = os.path.join(folder, "files")
    os.mkdir(folder)
    kept = os.path.join(folder, "kept")
    with Server(folder, "map", more=("--admin", "--etags")) as server:
        with Gateway(folder, server.url, "--files", kept, "--behind-nginx") as gateway:
            kinds(cases, gateway.url, kept)
            refused(cases, gateway.url, kept)
            names(cases, gateway.url)
            by_gis(cases, gateway, server.url)
            behind_nginx(cases, folder, server, gateway)
        with Gateway(folder, server.url) as gateway:
            reply = sent(gateway.url + "/files/", JPEG)
            cases.show(
                "files: a gateway without a folder",
                (status_of(reply), b"start it with --files FOLDER" in reply[2]),
                (404, True),
            )
        commands(cases, folder, server, kept)


def kinds(cases, url, kept):
    """Each kind is kept under its hash, and sent back as it is."""
    for content, end, kind, how in (
        (JPEG, "jpg", "image/jpeg", "inline"),
        (PNG, "png", "image/png", "inline"),
        (GIF, "gif", "image/gif", "inline"),
        (WEBP, "webp", "image/webp", "inline"),
        (PDF, "pdf", "application/pdf", "attachment"),
    ):
        # What its sender says that it is doesn't count.
        reply = sent(url + "/files/", content, "-H", "Content-Type: text/html")
        path = path_of(content, end)
        cases.show(f"files: {end}", (status_of(reply), json.loads(reply[2])), (201, {"path": path}))
        back = curl(f"{url}/{path}")
        fields = [
            field(back, name)
            for name in (
                "content-type",
                "x-content-type-options",
                "content-disposition",
                "cross-origin-resource-policy",
            )
        ]
        cases.show(
            f"files: {end} is sent back",
            (status_of(back), fields, back[2] == content),
            (200, [kind, "nosniff", how, "same-origin"], True),
        )
        cases.show(
            f"files: a browser runs nothing of {end}", "sandbox" in (field(back, "content-security-policy") or ""), True
        )
    path = path_of(JPEG, "jpg")
    again = sent(url + "/files/", JPEG)
    cases.show(
        "files: the same once more is the same file",
        (status_of(again), json.loads(again[2])["path"], sorted(os.listdir(kept))),
        (
            201,
            path,
            sorted(
                os.path.basename(path_of(content, end))
                for content, end in ((JPEG, "jpg"), (PNG, "png"), (GIF, "gif"), (WEBP, "webp"), (PDF, "pdf"))
            ),
        ),
    )
    tag = field(curl(f"{url}/{path}"), "etag")
    cases.show("files: one that a browser has", status_of(curl(f"{url}/{path}", "-H", f"If-None-Match: {tag}")), 304)
    cases.show(
        "files: only its head",
        (status_of(curl(f"{url}/{path}", "-I")), field(curl(f"{url}/{path}", "-I"), "content-length")),
        (200, str(len(JPEG))),
    )


def refused(cases, url, kept):
    """What is never kept."""
    before = sorted(os.listdir(kept))
    for name, content in HOSTILE.items():
        reply = sent(url + "/files/", content, "-H", "Content-Type: image/jpeg")
        cases.show(
            f"files: {name} is no picture, whatever its sender says",
            (status_of(reply), b"no picture" in reply[2]),
            (415, True),
        )
    large = sent(url + "/files/", JPEG + b"\0" * (20 * 2**20))
    cases.show("files: larger than 20 MiB", status_of(large), 413)
    foreign = [
        status_of(sent(url + "/files/", JPEG + b"x", "-H", f"Origin: {origin}"))
        for origin in ("http://other.example", "null")
    ]
    cases.show("files: sent by a page of another origin", foreign, [403, 403])
    cases.show(
        "files: and put by one",
        status_of(put(url + "/files/put/a.jpg", JPEG + b"x", "-H", "Origin: http://other.example")),
        403,
    )
    cases.show(
        "files: without a length", status_of(sent(url + "/files/", JPEG, "-H", "Transfer-Encoding: chunked")), 411
    )
    cases.show("files: another host", status_of(sent(url + "/files/", JPEG, "-H", "Host: other.example")), 421)
    for path in (
        "/files/",
        "/files/x.jpg",
        "/files/../kept",
        "/files/%2e%2e/map",
        "/files/put/../map",
        "/files//etc/passwd",
        f"/files/{'0' * 64}.jpg",
        "/files/put/none",
        f"/{path_of(JPEG, 'html')}",
    ):
        cases.show(f"files: {path} isn't there", status_of(curl(url + path, "--path-as-is")), 404)
    for path in (
        "/files/put/a/b.jpg",
        "/files/put/..",
        "/files/put/",
        "/files/put/a.jpg.html.exe",
        "/files/put/%2e%2e%2fx",
        f"/files/put/{'a' * 65}",
    ):
        cases.show(f"files: {path} is no name"[:60], status_of(put(url + path, JPEG, "--path-as-is")), 400)
    cases.show(
        "files: none is deleted",
        [status_of(curl(f"{url}/{path_of(JPEG, 'jpg')}", "-X", method)) for method in ("DELETE", "PUT", "PATCH")],
        [405] * 3,
    )
    cases.show("files: nothing of this is kept", sorted(os.listdir(kept)), before)


def names(cases, url):
    """Names that senders choose, as QGIS does."""
    path = path_of(JPEG, "jpg")
    reply = put(url + "/files/put/one.jpg", JPEG)
    cases.show(
        "files: a name of the sender's own",
        (status_of(reply), json.loads(reply[2])["path"], field(reply, "location")),
        (201, path, f"{url}/{path}"),
    )
    cases.show("files: the same again", status_of(put(url + "/files/put/one.jpg", JPEG)), 201)
    cases.show("files: another file of this name", status_of(put(url + "/files/put/one.jpg", PNG)), 409)
    back = curl(url + "/files/put/one.jpg")
    cases.show(
        "files: which is as it was",
        (status_of(back), back[2] == JPEG, field(back, "content-type")),
        (200, True, "image/jpeg"),
    )


def by_gis(cases, gateway, url):
    """A GIS sends addresses, and the map has paths."""
    curl(
        f"{url}/features/1", "-X", "PUT", body=feature("well", 0, 14, tags={"name": "Well", "photo": "", "other": "x"})
    )
    gis, path = Gis(gateway, "well.points"), path_of(JPEG, "jpg")
    gis.rows()
    cases.show(
        "files: a save of an address of QGIS",
        gis.save(gis.update(1, photo=gateway.url + "/files/put/one.jpg")),
        "SUCCESS",
    )
    cases.show("files: the map has the path", feature_at(url, 1)["tags"]["photo"], path)
    cases.show("files: a GIS has the address", gis.anew()[1]["photo"], f"{gateway.url}/{path}")
    cases.show(
        "files: which it may save as it is",
        (gis.save(gis.update(1, photo=f"{gateway.url}/{path}", name="A")), feature_at(url, 1)["tags"]["photo"]),
        ("SUCCESS", path),
    )
    told = gis.save(gis.insert(point(1000, 1000), name="B", photo="http://other.example/files/put/one.jpg"))
    new = int(re.search(r"well\.points\.(\d+)", told)[1])
    cases.show("files: a new feature", feature_at(url, new)["tags"]["photo"], path)
    gis.anew()
    for text in (
        "http://other.example/files/put/none.jpg",
        f"see {gateway.url}/{path}",
        "http://other.example/photo.jpg",
        path.replace("files", "file"),
    ):
        gis.save(gis.update(new, photo=text))
        gis.anew()
        cases.show(f"files: {text[:40]} is a text", feature_at(url, new)["tags"]["photo"], text)
    curl(f"{url}/features/{new}", "-X", "DELETE")


def behind_nginx(cases, folder, server, gateway):
    """Those who edit send and see files, and nobody else."""
    nginx = shutil.which("nginx", path=os.environ.get("PATH", "") + ":/usr/sbin")
    if not nginx:
        cases.say("no nginx: files aren't sent through it")
        return
    with Nginx(nginx, folder, server, [("127.0.0.1:8090", f"127.0.0.1:{gateway.port}")]) as front:
        large, away = JPEG + os.urandom(2 ** 21), ["--interface", "127.0.0.2"]
        reply = sent(front.url + "/files/", large)
        path = path_of(large, "jpg")
        cases.show("nginx: a photo of 2 MB", (status_of(reply), field(reply, "location")), (201, f"{front.url}/{path}"))
        back = curl(f"{front.url}/{path}")
        kept = [value for name, value in back[1] if name.lower() in ("cache-control", "x-content-type-options")]
        cases.show(
            "nginx: it is sent back, and kept by browsers",
            (back[2] == large, sorted(kept)),
            (True, ["nosniff", "private, max-age=31536000, immutable"]),
        )
        others = [status_of(curl(f"{front.url}/{path}", *away)), status_of(sent(front.url + "/files/", large, *away))]
        cases.show("nginx: not for another address", others, [403, 403])
        cases.show(
            "nginx: nor by a page of another origin",
            status_of(sent(front.url + "/files/", large, "-H", "Origin: http://other.example")),
            403,
        )
        cases.show(
            "nginx: larger than 20 MiB", status_of(sent(front.url + "/files/", JPEG + b"\0" * (20 * 2**20))), 413
        )
        cases.show(
            "nginx: HTML that says it is a picture",
            status_of(sent(front.url + "/files/", HOSTILE["HTML"], "-H", "Content-Type: image/png")),
            415,
        )
    shutil.rmtree(front.folder)
    # With the two lines for files that everybody sees.
    public = [("# allow all;\n            # limit_except", "allow all;\n            limit_except")]
    with Nginx(nginx, folder, server, [("127.0.0.1:8090", f"127.0.0.1:{gateway.port}"), *public]) as front:
        others = [
            status_of(curl(f"{front.url}/{path}", *away)),
            status_of(sent(front.url + "/files/", large, *away)),
            status_of(sent(front.url + "/files/", large)),
        ]
        cases.show("nginx: files that everybody sees, and few send", others, [200, 403, 201])
    os.unlink(os.path.join(folder, "kept", os.path.basename(path)))
    shutil.rmtree(front.folder)


def commands(cases, folder, server, kept):
    """Orphans, what is missing, backups and the watch."""
    url = ["--url", server.url]
    jpeg, pdf = path_of(JPEG, "jpg"), path_of(PDF, "pdf")
    curl(
        f"{server.url}/features/2",
        "-X",
        "PUT",
        body=feature("well", 0, 2, tags={"plan": f"see {pdf}, and http://maps.example/{jpeg}"}),
    )
    lines = ran("files", kept, *url)
    orphans = sorted(
        os.path.basename(path_of(content, end)) for content, end in ((PNG, "png"), (GIF, "gif"), (WEBP, "webp"))
    )
    cases.show(
        "files: those that no feature names",
        ([re.match(r"orphan: .*/(\S+): \d+ bytes, 20", line)[1] for line in lines[:-1]], lines[-1]),
        (orphans, "5 files, 3 orphans, 0 missing"),
    )
    cases.show("files: which are there yet", len(os.listdir(kept)), 6)
    backups = os.path.join(folder, "backups")
    os.mkdir(backups)
    saved, watches = os.path.join(backups, "map-2026-12-01.jsonl"), [
        "watch",
        "--files",
        kept,
        "--backups",
        backups,
        *url,
    ]
    old = os.path.join(kept, os.path.basename(jpeg))
    os.utime(old, (1, 1))
    cases.show(
        "files: the watch sees that a backup lacks one",
        [line for line in ran(*watches, status=2) if "aren't in" in line],
        [
            f"1 photos and files of {kept} aren't in {backups}/files, as {os.path.basename(jpeg)}: vtmap save --files"
            f" {kept}"
        ],
    )
    cases.show(
        "files: a backup",
        ran("save", saved, "--files", kept, *url),
        ["2 features saved", "5 files saved, 0 were there already"],
    )
    cases.show(
        "files: the next one",
        ran("save", saved, "--files", kept, "--disk", server.disk)[1:],
        ["0 files saved, 5 were there already"],
    )
    cases.show("files: the watch is content", ran(*watches)[-1].endswith("nothing to do"), True)
    os.unlink(old)
    cases.show(
        "files: one that is lost",
        ran("files", kept, *url, status=1)[0],
        f"missing: {jpeg}: feature 1 (photo), feature 2 (plan)",
    )
    cases.show(
        "files: a backup says so, and is whole",
        ran("save", saved, "--files", kept, *url)[2:],
        [f"missing: {jpeg}, which feature 1 names (photo): an earlier backup has it"],
    )
    cases.show(
        "files: the watch sees it now",
        [line for line in ran(*watches, status=2) if "any more" in line],
        [
            f"1 photos and files of {backups}/files aren't in {kept} any more, as {os.path.basename(jpeg)}: copy them"
            " back (docs/DEPLOYING.md)"
        ],
    )
    cases.show(
        "files: it is put back", ran("load", saved, "--files", kept, *url)[0], "1 files put, 1 were there already"
    )
    with open(old, "rb") as file:
        cases.show("files: as it was", file.read() == JPEG, True)
    with open(os.path.join(kept, os.path.basename(pdf)), "ab") as file:
        file.write(b"!")
    cases.show(
        "files: one that is damaged",
        ran("files", kept, "--damaged", *url, status=1)[0],
        f"damaged: {kept}/{os.path.basename(pdf)}",
    )
    cases.show(
        "files: isn't saved as what it was",
        ran("save", os.path.join(folder, "other", "map.jsonl"), "--files", kept, *url, status=1)[-1:]
        if os.mkdir(os.path.join(folder, "other")) is None
        else None,
        [f"damaged, and not saved: {kept}/{os.path.basename(pdf)}"],
    )
    cases.show(
        "files: a folder that isn't there",
        ran("files", os.path.join(folder, "none"), *url, status=1),
        [f"{folder}/none is no folder"],
    )


# ---- QGIS

QGIS = """
import os, sys, time
os.environ["QT_QPA_PLATFORM"] = "offscreen"
from qgis.core import *
from qgis.gui import *
from qgis.PyQt.QtCore import QMimeData, QPoint, QPointF, Qt, QUrl
from qgis.PyQt.QtGui import QDragEnterEvent, QDropEvent
from qgis.PyQt.QtWidgets import QApplication, QLabel, QLineEdit
app = QgsApplication([], True, os.path.join(sys.argv[1], "profile"))
app.initQgis()
QgsGui.editorWidgetRegistry().initEditors()
project, photo = sys.argv[2:4]
QgsProject.instance().read(project)
layer = next(layer for layer in QgsProject.instance().mapLayers().values() if layer.providerType() == "WFS")


def until(is_done):
    end = time.monotonic() + 30
    while not is_done() and time.monotonic() < end:
        app.processEvents()


def form_of(layer):
    '''The form of the one feature, and the attachment widget in it.'''
    form = QgsAttributeForm(layer, next(layer.getFeatures()))
    form.setMode(QgsAttributeEditorContext.SingleEditMode)
    form.show()
    return form, form.findChildren(QgsExternalResourceWidget)[0]


def has_picture(form):
    return any(label.pixmap() and label.pixmap().width() > 50 for label in form.findChildren(QLabel))


layer.startEditing()
form, widget = form_of(layer)
# A photo is dropped on the widget, as from a folder.
line, mime = widget.fileWidget().findChild(QLineEdit), QMimeData()
mime.setUrls([QUrl.fromLocalFile(photo)])
QApplication.sendEvent(line, QDragEnterEvent(QPoint(5, 5), Qt.CopyAction, mime, Qt.LeftButton, Qt.NoModifier))
QApplication.sendEvent(line, QDropEvent(QPointF(5, 5), Qt.CopyAction, mime, Qt.LeftButton, Qt.NoModifier))
until(lambda: "/put/" in str(widget.fileWidget().filePath()))
until(lambda: has_picture(form))
print(has_picture(form))
print(form.save(), layer.commitChanges())
again = QgsVectorLayer(layer.source(), "again", "WFS")
again.setEditorWidgetSetup(again.fields().indexOf("photo"), layer.editorWidgetSetup(layer.fields().indexOf("photo")))
print(next(again.getFeatures())["photo"])
form, widget = form_of(again)
until(lambda: has_picture(form))
print(has_picture(form))
sys.stdout.flush()
os._exit(0)
"""


def by_qgis(cases: Cases, folder: str) -> None:
    """QGIS's attachment widget, in the project of `vtmap qgis --edit`: the part `files-qgis`."""
    nginx = shutil.which("nginx", path=os.environ.get("PATH", "") + ":/usr/sbin")
    if (
        not nginx
        or subprocess.run([SYSTEM_PYTHON, "-c", "import qgis.gui"], capture_output=True, check=False).returncode
    ):
        cases.say("no python3-qgis or no nginx: QGIS sends no photo")
        return
    folder = os.path.join(folder, "files-qgis")
    os.mkdir(folder)
    photo, project, picture = os.path.join(folder, "IMG 1.png"), os.path.join(folder, "map.qgs"), image((9, 200, 90))
    with open(photo, "wb") as file:
        file.write(picture)
    with Server(folder, "map", more=("--admin",)) as server, Gateway(
        folder, server.url, "--files", os.path.join(folder, "kept")
    ) as gateway:
        curl(f"{server.url}/features/1", "-X", "PUT", body=feature("well", 0, 14, tags={"name": "Well", "photo": ""}))
        with Nginx(nginx, folder, server, [("127.0.0.1:8090", f"127.0.0.1:{gateway.port}")]) as front:
            subprocess.run([*VTMAP, "qgis", project, "--edit", "--url", front.url], capture_output=True, check=True)
            child = subprocess.run(
                [SYSTEM_PYTHON, "-c", QGIS, folder, project, photo],
                capture_output=True,
                text=True,
                check=False,
                timeout=200,
            )
            path = path_of(picture, "png")
            cases.show(
                "files: a photo that is dropped on QGIS's form is sent, shown, saved, and shown again",
                child.stdout.splitlines() or child.stderr,
                ["True", "True True", f"{front.url}/{path}", "True"],
            )
            cases.show(
                "files: and the map has its path", feature_at(server.url, 1)["tags"], {"name": "Well", "photo": path}
            )


# ---- the page


def page_photos(cases: Cases, folder: str) -> None:
    """The page sends and shows photos: the part `page-photos`."""
    nginx = shutil.which("nginx", path=os.environ.get("PATH", "") + ":/usr/sbin")
    if not (nginx and shutil.which("chromium")):
        cases.say("no chromium or no nginx: the page sends no photo")
        return
    folder = os.path.join(folder, "page-photos")
    os.mkdir(folder)
    files = {"IMG 1.png": image((200, 90, 10)), "plan.pdf": PDF, "drawing.svg": HOSTILE["SVG"]}
    for name, content in files.items():
        with open(os.path.join(folder, name), "wb") as file:
            file.write(content)
    with Server(folder, "map", more=("--admin", "--etags")) as server, Gateway(
        folder, server.url, "--files", os.path.join(folder, "kept")
    ) as gateway:
        place = {"points": [[2**31, 2**31]]}
        for number in (70001, 70002):
            curl(f"{server.url}/features/{number}", "-X", "PUT", body=feature("well", 0, 14, place, {"name": "Well"}))
        with Nginx(nginx, folder, server, [("127.0.0.1:8090", f"127.0.0.1:{gateway.port}")]) as front:
            shutil.copytree(os.path.join(TOP, "web"), os.path.join(front.folder, "pages"))
            for number, wide, high in ((70001, 1280, 800), (70002, 390, 844)):
                with Browser(os.path.join(folder, f"profile-{wide}"), wide, high, ["--lang=en"]) as browser:
                    photographs(cases, browser.open(front.url + "/pages/#3/0/0"), folder, server.url, number, f"{wide}")


def choose(page, path):
    """Chooses a file in the form."""
    root = page.ask("DOM.getDocument")["root"]["nodeId"]
    field = page.ask("DOM.querySelector", nodeId=root, selector="#panel form input[type=file]")["nodeId"]
    page.ask("DOM.setFileInputFiles", files=[path], nodeId=field)


def opened(page, number):
    """Shows a feature by its id."""
    page.type("#search input", f"{number}")
    page.press("Find")
    page.wait(f"document.getElementById('panel-title')?.textContent === 'well {number}'")


def photographs(cases, page, folder, url, number, name):
    """A photo and a plan of one feature."""
    page.wait("document.getElementById('told').innerText.includes('2 features')")
    opened(page, number)
    page.press("Edit")
    page.wait("document.querySelector('#panel form input[type=file]')")
    choose(page, os.path.join(folder, "drawing.svg"))
    told = page.wait("document.querySelector('#panel .fault')?.textContent")
    cases.show(f"page: {name}: an SVG is refused", told, "it is no picture (JPEG, PNG, GIF, WebP) and no PDF (415)")
    photo, plan = path_of(image((200, 90, 10)), "png"), path_of(PDF, "pdf")
    for file, path in (("IMG 1.png", photo), ("plan.pdf", plan)):
        choose(page, os.path.join(folder, file))
        page.wait(f"[...document.querySelectorAll('#panel .tags textarea')].some(each => each.value === '{path}')")
    page.press("Save")
    page.wait("document.getElementById('told').innerText.includes('saved')")
    cases.show(
        f"page: {name}: the map has the paths",
        feature_at(url, number)["tags"],
        {"name": "Well", "photo": photo, "document": plan},
    )
    page.wait("document.getElementById('panel').hidden")
    page.value("new Promise(done => setTimeout(done, 1500))")
    opened(page, number)
    size = page.wait(
        "(() => { const image = document.querySelector('#panel img'); return image?.naturalWidth ? [image.naturalWidth,"
        " image.alt] : null; })()"
    )
    cases.show(f"page: {name}: the photo is seen", size, [256, "photo"])
    links = page.value(
        "[...document.querySelectorAll('#panel td a')].map(each => [new URL(each.href).pathname, each.innerText,"
        " each.rel])"
    )
    cases.show(
        f"page: {name}: and both can be opened",
        sorted(links),
        sorted([[f"/{photo}", "", "noopener"], [f"/{plan}", "open document", "noopener"]]),
    )
    if os.environ.get("PICTURES"):
        page.picture(os.path.join(os.environ["PICTURES"], f"page-photo-{name}.png"))
    # 404 is a map without a schema.
    told = [fault for fault in page.faults() if "415" not in fault and "404" not in fault]
    cases.show(f"page: {name}: the browser complains of nothing else", told, [])
