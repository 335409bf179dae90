"""The part `run` of run.py: `vtmap follow --run`, which tells a command of each edit, of a box and of layers: each once
and in order over kills, renamed logs and a command that fails; and the examples with a webhook and a mail, as
docs/DEPLOYING.md has them."""
import http.server
import json
import os
import re
import shutil
import threading
import time

from .past import History, content
from .stand import TOP, Cases, Server, curl
from .standby import Editor, follow, once, waited

# Keeps what it is told, unless there is a file `fails`.
KEEPS = "[ ! -e {0}/fails ] && cat >> {0}/told.jsonl"
WEST, EAST = [2**31 - 10**8, 2**31], [2**31 + 10**8, 2**31]


def shape(place, layer="road", name="x"):
    """A feature with a point."""
    return {"geometry": {"points": [place]}, "layer": layer, "maxzoom": 9, "minzoom": 0, "tags": {"name": name}}


def told(history):
    """The rows that the command was told: those that it has written whole."""
    whole = (content(history.path("told.jsonl")) or b"").rpartition(b"\n")[0]
    return [json.loads(line) for line in whole.splitlines()]


def short(rows):
    """The numbers of edits with what of them is told."""
    return [
        row["missed"]
        if "missed" in row
        else (row["edit"], [change.get("put", -change.get("delete", 0)) for change in row["changes"]])
        for row in rows
    ]


def chosen(cases: Cases, folder: str) -> None:
    """A box and layers: what is in them, and what was."""
    with Server(folder, "chosen", 65536) as server:
        history = History(folder, server, "chosen.jsonl")
        words = [
            "--log",
            history.log,
            "--run",
            KEEPS.format(folder),
            "--bbox",
            "1,-5,20,5",
            "--layer",
            "road",
            "--layer",
            "river",
        ]
        once(server.url, *words)
        history.edit({"put": 1, "feature": shape(EAST)}, {"put": 2, "feature": shape(WEST)})
        history.edit({"put": 3, "feature": shape(EAST, "house")}, {"put": 4, "feature": shape(EAST, "river")})
        history.edit({"put": 5, "feature": shape(WEST)})
        history.edit({"put": 1, "feature": shape(WEST)})
        history.edit({"put": 1, "feature": shape(WEST, name="y")})
        history.edit({"delete": 4}, {"delete": 5}, {"delete": 3})
        code, _ = once(server.url, *words)
        cases.show(
            "run: a box and two layers", (code, short(told(history))), (0, [(1, [1]), (2, [4]), (4, [1]), (6, [-4])])
        )
        row = told(history)[2]
        cases.show(
            "run: a line is that of the log",
            (row["changes"][0]["was"], row["changes"][0]["feature"], sorted(row)[0]),
            (shape(EAST), shape(WEST), "changes"),
        )
        code, _ = once(server.url, *words)
        cases.show("run: each is told once", (code, len(told(history))), (0, 4))
        faults = [
            once(server.url, *line)[0]
            for line in (
                ["--run", "true"],
                ["--log", history.log, "--bbox", "1,1,2,2"],
                [*words[:4], "--bbox", "9,9,1,1"],
            )
        ]
        cases.show("run: words that are wrong", faults, [2, 2, 2])
    os.remove(history.path("told.jsonl"))


def again(cases: Cases, folder: str) -> None:
    """A command that fails is told again; edits that the log misses; a log that was renamed, and one that was taken
    away."""
    with Server(folder, "again", 65536) as server:
        history = History(folder, server, "again.jsonl")
        words = ["--log", history.log, "--run", KEEPS.format(folder)]
        once(server.url, *words)
        with open(history.path("fails"), "wb"):
            pass
        history.edit({"put": 1, "feature": shape(EAST)})
        code, lines = once(server.url, *words)
        cases.show(
            "run: a command that fails",
            (code, lines[-1], told(history)),
            (1, "--run: it ended with 1, and is told again in 10 s", []),
        )
        history.edit({"put": 2, "feature": shape(EAST)})
        os.remove(history.path("fails"))
        code, _ = once(server.url, *words)
        cases.show("run: is told again of all", (code, short(told(history))), (0, [(1, [1]), (2, [2])]))
        history.edit({"put": 3, "feature": shape(EAST)})
        once(server.url, "--log", history.log)
        os.rename(history.log, history.log + ".1")
        history.edit({"put": 4, "feature": shape(EAST)})
        curl(server.url + "/publish", "-X", "POST")
        server.restart()
        history.edit({"put": 5, "feature": shape(EAST)})
        once(server.url, "--log", history.log)
        code, _ = once(server.url, *words)
        cases.show(
            "run: over a renamed log, with an edit that it misses",
            (code, short(told(history))[2:]),
            (0, [(3, [3]), [4, 4], (5, [5])]),
        )
        history.edit({"put": 6, "feature": shape(EAST)})
        once(server.url, "--log", history.log)
        os.remove(history.log)
        history.edit({"put": 7, "feature": shape(EAST)})
        code, _ = once(server.url, *words)
        cases.show("run: over a log that was taken away", (code, short(told(history))[5:]), (0, [[6, 6], (7, [7])]))
    os.remove(history.path("told.jsonl"))


def killed(cases: Cases, folder: str) -> None:
    """300 edits, while the log is renamed, and the process is killed: each is told, in order; twice only at a kill."""
    with Server(folder, "killed", 65536) as server:
        history, editor = History(folder, server, "killed.jsonl"), Editor(server.port)
        words = ["--log", history.log, "--run", KEEPS.format(folder), "--every", "0.02"]
        child, kills = follow(server.url, *words), 0
        child.stdout.readline()
        for at in range(300):
            editor.edit()
            if at % 60 == 30:
                # The log begins anew, as by logrotate, with one number more for each older file.
                for number in range(at // 60, 0, -1):
                    os.rename(f"{history.log}.{number}", f"{history.log}.{number + 1}")
                os.rename(history.log, f"{history.log}.1")
            if at % 70 == 69:
                child.kill()
                child.communicate()
                child, kills = follow(server.url, *words), kills + 1
                child.stdout.readline()
        waited(lambda: told(history) and told(history)[-1]["edit"] == 300)
        child.kill()
        child.communicate()
        numbers = [row["edit"] for row in told(history)]
        back = sum(one >= other for one, other in zip(numbers, numbers[1:]))
        cases.show(
            "run: over kills and a renamed log each edit is told, in order",
            (sorted(set(numbers)), back <= kills),
            (list(range(1, 301)), True),
        )
        wanted = {number: sorted(changes) for number, changes in editor.acknowledged.items()}
        found = {
            row["edit"]: sorted(change.get("put", change.get("delete")) for change in row["changes"])
            for row in told(history)
        }
        cases.show("run: with all its changes", found == wanted, True)
    os.remove(history.path("told.jsonl"))


def soon(cases: Cases, folder: str) -> None:
    """How soon the command is told."""
    with Server(folder, "soon", 65536) as server:
        history, editor = History(folder, server, "soon.jsonl"), Editor(server.port)
        child = follow(server.url, "--log", history.log, "--run", KEEPS.format(folder))
        child.stdout.readline()
        took = []
        for at in range(1, 8):
            editor.edit()
            began = time.monotonic()
            waited(lambda at=at: told(history) and told(history)[-1]["edit"] == at)
            took.append(time.monotonic() - began)
        child.kill()
        child.communicate()
        # Half a second where the machine has time for it.
        cases.show("run: an edit is told soon", sorted(took)[3] < 5 or sorted(took), True)
        cases.say(f"run: {sorted(took)[3]:.2f} s in the median")
    os.remove(history.path("told.jsonl"))


def examples(cases: Cases, folder: str) -> None:
    """The scripts of docs/DEPLOYING.md: a webhook that answers with a fault at first, and a mail."""
    with open(os.path.join(TOP, "docs", "DEPLOYING.md"), encoding="utf-8") as file:
        scripts = dict(re.findall(r"^# (webhook|mail)\.sh: .*?\n(.*?)^```", file.read(), re.MULTILINE | re.DOTALL))
    cases.show("run: the document has both scripts", sorted(scripts), ["mail", "webhook"])
    got = []

    class Hook(http.server.BaseHTTPRequestHandler):
        def do_POST(self):
            body = self.rfile.read(int(self.headers["content-length"]))
            got.append((self.headers["content-type"], body))
            self.send_response(500 if len(got) == 1 else 204)
            self.end_headers()

        def log_message(self, *words):
            pass

    hook = http.server.HTTPServer(("127.0.0.1", 0), Hook)
    threading.Thread(target=hook.serve_forever, daemon=True).start()
    for name, script in scripts.items():
        with open(os.path.join(folder, name + ".sh"), "w", encoding="utf-8") as file:
            file.write(script.replace("https://chat.example.org/hook", f"http://127.0.0.1:{hook.server_address[1]}"))
    # What stands in for the mail program keeps its words and its text.
    with open(os.path.join(folder, "mail"), "w", encoding="utf-8") as file:
        file.write(f'#!/bin/sh\necho "$@" > {folder}/mailed\ncat >> {folder}/mailed\n')
    os.chmod(os.path.join(folder, "mail"), 0o755)
    os.environ["PATH"] = folder + ":" + os.environ["PATH"]
    with Server(folder, "examples", 65536) as server:
        history = History(folder, server, "examples.jsonl")
        words = ["--log", history.log, "--run"]
        once(server.url, *words, f"sh {folder}/webhook.sh")
        history.edit({"put": 1, "feature": shape(EAST, name="Brücke 'A' \"B\" $(x) \\")})
        history.edit({"delete": 1})
        found = [once(server.url, *words, f"sh {folder}/webhook.sh")[0] for _ in range(2)]
        cases.show(
            "run: the webhook of the document",
            (found, [kind for kind, _ in got], [json.loads(body)["edit"] for _, body in got]),
            ([1, 0], ["application/json"] * 3, [1, 1, 2]),
        )
        history.edit({"put": 2, "feature": shape(EAST)})
        code, _ = once(server.url, *words, f"sh {folder}/mail.sh")
        text = (content(os.path.join(folder, "mailed")) or b"").decode()
        cases.show(
            "run: the mail of the document",
            (code, text.splitlines()[0].startswith("-s "), '"edit":3' in text),
            (0, True, True),
        )
    hook.shutdown()


def tellings(cases: Cases, folder: str) -> None:
    """`vtmap follow --run`."""
    place = os.path.join(folder, "tellings")
    os.mkdir(place)
    chosen(cases, place)
    again(cases, place)
    killed(cases, place)
    soon(cases, place)
    if shutil.which("curl"):
        examples(cases, place)
    shutil.rmtree(place)
