"""The part `page-print` of run.py: the page prints the map true to scale, in a real Chromium through nginx with
docs/nginx.conf.

The PDF that the browser makes is measured: its paper, and how far two lines of the map are from each other, which
lie 1,000 metres apart on the ground. Pictures are kept in the folder that PICTURES names, if it does.
"""
import base64
import json
import math
import os
import re
import shutil
import subprocess

from .browser import Browser
from .import_stand import world
from .pages import PAGE
from .stand import Cases, Nginx, Server, curl, feature

# Where the map is, and units of the world for a metre there.
LONGITUDE, LATITUDE = 7.5, 54.5
X, Y = (int(part) for part in world(LONGITUDE, LATITUDE))
METRE = 2 ** 32 / 40075016.685578488 / math.cos(math.radians(LATITUDE))
INCH, DOTS = 25.4, 150
# What the page has, at a place 10 metres south of each of two posts: a square of the layer `park`, whose colour is that
# of style.json.
HALF = int(500 * METRE)
GREEN = (0xc3, 0xdf, 0xb0)
PRINTED = "document.getElementById('sheet')?.innerText"


def square(x, y, side):
    """A ring around a place."""
    return [[x - side, y - side], [x + side, y - side], [x + side, y + side], [x - side, y + side]]


def page_print(cases: Cases, folder: str) -> None:
    """All of it."""
    nginx = shutil.which("nginx") or "/usr/sbin/nginx"
    if not (shutil.which("chromium") and shutil.which("pdftoppm") and os.path.exists(nginx)):
        cases.say("no chromium, no nginx or no poppler-utils: nothing is printed")
        return
    folder = os.path.join(folder, "page-print")
    os.mkdir(folder)
    with Server(folder, "map", more=("--admin", "--etags")) as server, Nginx(nginx, folder, server) as front:
        shutil.copytree(PAGE, os.path.join(front.folder, "pages"))
        side = int(20 * METRE)
        for number, place in ((1, X - HALF), (2, X + HALF)):
            curl(
                f"{server.url}/features/{number}",
                "-X",
                "PUT",
                body=feature("park", 10, 16, {"polygons": [[square(place, Y, side)]]}, {"name": f"Park {number}"}),
            )
        line = {"lines": [[[X - HALF, Y + HALF // 2], [X + HALF, Y + HALF // 2]]]}
        curl(f"{server.url}/features/3", "-X", "PUT", body=feature("road", 10, 16, line, {"kind": "path"}))
        curl(
            f"{server.url}/features/4",
            "-X",
            "PUT",
            body=feature("well", 10, 16, {"points": [[X, Y]]}, {"name": "<b>Well</b>"}),
        )
        curl(f"{server.url}/features/5", "-X", "PUT", body=feature("far", 10, 16, {"points": [[X + 40 * HALF, Y]]}))
        for wide, high in ((1280, 800), (390, 844)):
            with Browser(os.path.join(folder, f"profile-{wide}"), wide, high, ["--lang=en"]) as browser:
                prints(cases, browser, front.url, folder, f"{wide}")
        with Browser(os.path.join(folder, "profile"), more=["--lang=en"]) as browser:
            refuses(cases, browser, front.url)


def chosen(page, **words):
    """Fills the form: fields by their labels."""
    for label, value in words.items():
        place = f"document.querySelector('#panel [aria-label={label}]')"
        page.value(
            f"(() => {{ const field = {place}; field.value = {json.dumps(value)}; field.dispatchEvent(new"
            " Event('change')); })()"
        )


def pdf_of(page, path):
    """What the browser prints, as a PDF."""
    made = page.ask("Page.printToPDF", preferCSSPageSize=True, printBackground=False)
    with open(path, "wb") as file:
        file.write(base64.b64decode(made["data"]))


def printed(page, path, **words):
    """Prints with these words. Returns what the page says while it is printed."""
    page.press("Print …")
    page.wait("document.querySelector('#panel [aria-label=scale]')")
    chosen(page, **words)
    page.value("window.asked = 0; window.print = () => { window.asked++; }")
    if os.environ.get("PICTURES"):
        page.value("new Promise(done => setTimeout(done, 800))")
        page.picture(os.path.join(os.environ["PICTURES"], os.path.basename(path).replace(".pdf", "-asked.png")))
    page.press("Print")
    page.wait("window.asked")
    text = page.value("document.getElementById('sheet').textContent")
    pdf_of(page, path)
    page.press("Cancel")
    return text


def measured(path):
    """The pages of a PDF and their size in millimetres, and the millimetres between the middles of what is green of
    its first half and its second."""
    told = subprocess.run(["pdfinfo", path], capture_output=True, text=True, check=True).stdout
    pages, wide, high = (
        re.search(r"Pages: +(\d+)", told)[1],
        *re.search(r"Page size: +([\d.]+) x ([\d.]+)", told).groups(),
    )
    subprocess.run(["pdftoppm", "-r", str(DOTS), "-singlefile", path, path], check=True)
    with open(path + ".ppm", "rb") as file:
        head, size, _, data = file.read().split(b"\n", 3)
    across, down = map(int, size.split())
    green = [at // 3 % across for at in places_of(data, bytes(GREEN)) if at // 3 // across < down * 0.8]
    lefts, rights = [x for x in green if x < across / 2], [x for x in green if x >= across / 2]
    far = (sum(rights) / len(rights) - sum(lefts) / len(lefts)) / DOTS * INCH if lefts and rights else None
    os.unlink(path + ".ppm")
    return head, int(pages), [round(float(side) / 72 * INCH) for side in (wide, high)], far


def places_of(data, colour):
    """Where a colour is in the bytes of pixels."""
    at = data.find(colour)
    while at >= 0:
        if at % 3 == 0:
            yield at
        at = data.find(colour, at + 1)


def prints(cases, browser, url, folder, name):
    """The map on papers of two sizes, at two scales."""
    page = browser.open(f"{url}/pages/#15/{LATITUDE}/{LONGITUDE}")
    page.wait("document.getElementById('told').innerText.includes('5 features')")
    for paper, sides, scale, size in (
        ("A4", "wide", "5000", [297, 210]),
        ("A3", "high", "10000", [297, 420]),
        ("A4", "high", "10000", [210, 297]),
    ):
        path = os.path.join(folder, f"{name}-{paper}-{sides}-{scale}.pdf")
        text = printed(page, path, title="A <plan> & more", paper=paper, sides=sides, scale=scale)
        _, pages, found, far = measured(path)
        wanted = 1000 / int(scale) * 1000
        cases.show(f"print: {name}: {paper} {sides}: one page of its size", (pages, found), (1, size))
        cases.show(
            f"print: {name}: {paper} 1 : {scale}: 1,000 m are {wanted:g} mm",
            far is not None and abs(far - wanted) < 0.4 or far,
            True,
        )
        parts = [
            part in text
            for part in ("A <plan> & more", f"1 : {int(scale):,}", "park", "road, path", "well", url.partition("//")[2])
        ]
        cases.show(f"print: {name}: {paper}: title, scale, legend, place", (parts, "far" in text), ([True] * 6, False))
        if os.environ.get("PICTURES"):
            subprocess.run(
                [
                    "pdftoppm",
                    "-png",
                    "-r",
                    "70",
                    "-singlefile",
                    path,
                    os.path.join(os.environ["PICTURES"], os.path.basename(path)[:-4]),
                ],
                check=True,
            )
    left = page.value("[document.getElementById('sheet'), document.title, document.getElementById('panel').hidden]")
    cases.show(f"print: {name}: nothing of it is left", left, [None, "Map", True])
    cases.show(f"print: {name}: the browser complains of nothing", page.faults(), [])


def refuses(cases, browser, url):
    """What is edited is finished first, and who prints keeps the place."""
    page = browser.open(f"{url}/pages/#15/{LATITUDE}/{LONGITUDE}")
    page.wait("document.getElementById('told').innerText.includes('5 features')")
    page.press("New point")
    page.press("Print …")
    cases.show(
        "print: not while something is edited",
        page.wait("document.getElementById('told').innerText"),
        "save or cancel what you edit first",
    )
    page.press("Cancel")
    page.press("Print …")
    page.wait("document.querySelector('#panel [aria-label=scale]')")
    cases.show(
        "print: the form has the focus, and labels",
        page.value("[document.activeElement.tagName, document.querySelectorAll('#panel [aria-label]').length]"),
        ["H2", 4],
    )
    # 1,000 pixels at zoom 15 are 1.39 km across: on 277 mm that is 1 : 5,009, so the next scale shows all of it.
    cases.show(
        "print: the scale at first shows what the screen shows",
        page.value("document.querySelector('#panel [aria-label=scale]').value"),
        "10000",
    )
