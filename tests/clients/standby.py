"""The parts `standby` and `long-follow` of run.py: `vtmap follow` from a server to two standbys and a log, while
each of them is killed, replies are lost and the map is published. A standby has each edit under the same number, and
its features byte for byte."""
import atexit
import http.client
import itertools
import json
import os
import random
import shutil
import signal
import subprocess
import threading
import time

from vtmap.client.client import Client

from .between import Between
from .stand import PROGRAM, VTMAP, Cases, Server, curl, feature

EDITS = 10_000
# The edits between two publications, and between two kills of one of the three processes.
PUBLISHED, KILLED = 2500, 900
AT = "/admin/edits/at/"


class Editor:
    """Whoever edits a server: one request after the other, each sent again after a fault until it is seen what
    became of it."""

    def __init__(self, port, seed=1):
        self.port, self.random, self.connection = port, random.Random(seed), None
        # What was acknowledged, by the number, and the ids that the map has.
        self.acknowledged, self.there = {}, set()

    def ask(self, method, path, body=None):
        """Status and content of a reply."""
        if self.connection is None:
            self.connection = http.client.HTTPConnection("127.0.0.1", self.port, timeout=60)
        try:
            self.connection.request(method, path, body)
            reply = self.connection.getresponse()
            return reply.status, reply.read()
        except (OSError, http.client.HTTPException):
            self.connection.close()
            self.connection = None
            return None, b""

    def feature(self):
        """Some feature."""
        place = [self.random.randrange(2**32), self.random.randrange(2**32)]
        geometry = (
            {"points": [place]}
            if self.random.random() < 0.8
            else {"lines": [[place, [place[0] ^ 1023, place[1] ^ 511]] * 20]}
        )
        tags = {
            "name": self.random.choice(["Brücke", "a\u0001b", '"\\', "x" * 900]),
            "n": self.random.choice([True, 7, -3, 2**64 - 1]),
        }
        return {"layer": self.random.choice("pqr"), "minzoom": 0, "maxzoom": 9, "geometry": geometry, "tags": tags}

    def changes(self):
        """The changes of some edit: one, or several."""
        ids = self.random.sample(range(1, 400), self.random.choice([1, 1, 1, 5, 60]))
        return [
            {"delete": number}
            if number in self.there and self.random.random() < 0.3
            else {"put": number, "feature": self.feature()}
            for number in ids
        ]

    def edit(self):
        """Makes some edit under the next number, however often it has to be sent. Returns whether the journal had no
        room for it."""
        changes, number = self.changes(), len(self.acknowledged) + 1
        body = json.dumps({"changes": changes})
        while True:
            status, content = self.ask("POST", f"{AT}{number}", body)
            if status == 200 or (status == 409 and content == b"Next %d\n" % (number + 1)):
                break
            if status == 507:
                return True
            if status is not None:
                raise AssertionError((status, content))
            time.sleep(0.05)
        self.acknowledged[number] = {
            change.get("put", change.get("delete")): change.get("feature") for change in changes
        }
        self.there |= {change["put"] for change in changes if "put" in change}
        self.there -= {change["delete"] for change in changes if "delete" in change}
        return False


def known(server):
    """What a server tells of itself."""
    return json.loads(curl(server.url + "/admin/status")[2])


def features(server):
    """The features of a server, byte for byte: the pages of its list."""
    pages, first = [], 0
    while first is not None:
        pages.append(curl(f"{server.url}/admin/features/page/{first}")[2])
        first = json.loads(pages[-1])["next"]
    return pages


def copied(source, folder, name):
    """A standby's disk, as a copy of a server's."""
    path = os.path.join(folder, name)
    subprocess.run([PROGRAM, "copy", source.disk, path], check=True, stdout=subprocess.DEVNULL)
    return name


def follow(url, *words):
    """A process of `vtmap follow`, whose lines are read once it has ended. It ends with this process at the latest."""
    child = subprocess.Popen(
        [*VTMAP, "follow", "--url", url, *words], stdout=subprocess.PIPE, stderr=subprocess.STDOUT, text=True
    )
    atexit.register(child.kill)
    return child


def once(url, *words):
    """The status and the lines of `vtmap follow --once`."""
    child = subprocess.run([*VTMAP, "follow", "--once", "--url", url, *words], capture_output=True, text=True)
    return child.returncode, (child.stdout + child.stderr).splitlines()


def waited(what, seconds=180.0):
    """Whether something comes true."""
    end = time.monotonic() + seconds
    while not what():
        if time.monotonic() > end:
            return False
        time.sleep(0.02)
    return True


def log_of(path):
    """The edits of a log by their numbers: what they put, None for what they delete; the line of an edit that is
    there twice, or missing."""
    found = {}
    with open(path, encoding="utf-8") as file:
        for row in map(json.loads, file):
            if "begins" in row:
                continue
            if row.get("edit", None) in found or "missed" in row:
                return row
            found[row["edit"]] = {
                change.get("put", change.get("delete")): change.get("feature") for change in row["changes"]
            }
    return found


def has_was(path):
    """Whether each change of a log has what it replaced: a replay of the log from an empty map finds it."""
    there = {}
    with open(path, encoding="utf-8") as file:
        rows = list(map(json.loads, file))
    for change in (change for row in rows for change in row.get("changes", ())):
        number = change.get("put", change.get("delete"))
        if change["was"] != there.get(number):
            return False
        there[number] = change.get("feature")
    return all("missed" not in row for row in rows)


def basics(cases: Cases, folder: str) -> None:
    """Two standbys and a log, within a second; lost replies; a standby that somebody else edits; a server behind a
    proxy that restarts."""
    with Server(folder, "leader", 65536) as leader:
        editor, log = Editor(leader.port), os.path.join(folder, "edits.jsonl")
        editor.edit()
        with Server(folder, copied(leader, folder, "one")) as one, Server(folder, copied(leader, folder, "two")) as two:
            child = follow(leader.url, "--to", one.url, "--to", two.url, "--log", log)
            lines = sorted(child.stdout.readline() for _ in range(3))
            cases.show("standby: each is followed from the next edit on", lines, sorted(
                f"{name}: following {leader.url} from edit 2 on\n" for name in (one.url, two.url, log)))
            took = []
            for _ in range(10):
                editor.edit()
                began = time.monotonic()
                waited(lambda: known(one)["edits"] == known(two)["edits"] == len(editor.acknowledged))
                took.append(time.monotonic() - began)
            # Half a second where the machine has time for it.
            cases.show("standby: an edit is at both soon", sorted(took)[5] < 5 or sorted(took), True)
            cases.say(f"standby: {sorted(took)[5]:.2f} s in the median, {max(took):.2f} s at most")
            cases.show(
                "standby: the features of both, byte for byte", features(one) == features(two) == features(leader), True
            )
            cases.show(
                "standby: the log has each edit since",
                log_of(log) == {number: editor.acknowledged[number] for number in range(2, 12)},
                True,
            )
            child.terminate()
            child.communicate()
            watched(cases, leader, one, editor)
            lost(cases, leader, one, editor)
            foreign(cases, leader, two, editor)
        stopped(cases, leader, editor, os.path.join(folder, "stopped.jsonl"))


def watched(cases, leader, standby, editor):
    """`vtmap watch --standby`."""
    def seen():
        child = subprocess.run(
            [*VTMAP, "watch", "--url", leader.url, "--standby", standby.url, "--wait", "0.2"],
            capture_output=True,
            text=True,
        )
        return child.returncode, "has edits up to 11, and the server had 12 of them" in child.stdout

    found = seen()
    editor.edit()
    cases.show("standby: vtmap watch says whether it lacks edits", (found, seen()), ((0, False), (2, True)))


def lost(cases, leader, standby, editor):
    """Every third reply to an edit of the standby is lost, after it was made or before."""
    for _ in range(30):
        editor.edit()
    asked = []

    def counted(method, path):
        if path.startswith(AT):
            asked.append(path)
        return method == "POST" and path.startswith(AT) and len(asked) % 3 == 0

    for name, words in (
        ("after it was made", {"loses": counted}),
        ("before", {"instead": lambda *at: (0, b"") if counted(*at) else None}),
    ):
        with Between(standby, **words) as between:
            child = follow(leader.url, "--to", between.url, "--every", "0.05")
            has_all = waited(lambda: known(standby)["edits"] == len(editor.acknowledged))
            child.terminate()
            lines = child.communicate()[0].splitlines()
        seen = has_all, features(standby) == features(leader), any(line.endswith("waiting") for line in lines)
        cases.show(f"standby: every third reply is lost {name}", seen, (True, True, True))
        for _ in range(30):
            editor.edit()
    code, lines = once(leader.url, "--to", standby.url)
    cases.show(
        "standby: --once",
        (code, lines[0].split(" from edit ")[-1], known(standby)["edits"]),
        (0, "73 on", len(editor.acknowledged)),
    )
    with Between(leader, instead=lambda *_: (502, b"<html><title>502 Bad Gateway</title></html>")) as between:
        code, lines = once(between.url, "--to", standby.url)
    cases.show(
        "standby: a proxy whose server is away is waited for",
        (code, lines[-1].endswith(": 502 502 Bad Gateway")),
        (3, True),
    )


def foreign(cases, leader, standby, editor):
    """A standby that somebody else has edited, one that is another map, and one without the list of edits."""
    once(leader.url, "--to", standby.url)
    curl(standby.url + "/features/9", "-X", "PUT", body=feature())
    editor.edit()
    code, lines = once(leader.url, "--to", standby.url)
    cases.show(
        "standby: an edit by somebody else is found", (code, "was edited by somebody else" in lines[-1]), (1, True)
    )
    curl(standby.url + "/features/9", "-X", "DELETE")
    code, lines = once(leader.url, "--to", standby.url)
    cases.show(
        "standby: also if it has more edits",
        (code, "it is another map, or was put back from a copy" in lines[-1]),
        (1, True),
    )
    with Server(os.path.dirname(leader.disk), "plain", more=()) as plain:
        code, lines = once(plain.url, "--to", leader.url)
        cases.show("standby: a server without --admin", (code, "it runs without --admin" in lines[-1]), (1, True))


def stopped(cases, leader, editor, log):
    """A publication waits for a log whose follower has stopped for a while."""
    child = follow(leader.url, "--log", log)
    child.stdout.readline()
    child.send_signal(signal.SIGSTOP)
    editor.edit()
    publishing = subprocess.Popen([*VTMAP, "publish", "--url", leader.url, "--log", log], stdout=subprocess.DEVNULL)
    time.sleep(2)
    is_waiting = publishing.poll() is None
    child.send_signal(signal.SIGCONT)
    seen = (
        is_waiting,
        publishing.wait(100),
        log_of(log) == {len(editor.acknowledged): editor.acknowledged[len(editor.acknowledged)]},
    )
    child.terminate()
    child.communicate()
    cases.show(
        "standby: publish --log waits for a log whose follower has stopped, which misses nothing", seen, (True, 0, True)
    )


def behind(cases: Cases, folder: str) -> None:
    """Publications: with a pause nobody is left behind, without one a follower that was away is, and says what to
    do."""
    with Server(folder, "behind", 65536) as leader:
        editor, log = Editor(leader.port), os.path.join(folder, "behind.jsonl")
        editor.edit()
        name = copied(leader, folder, "standby")
        with Server(folder, name) as standby:
            child = follow(leader.url, "--to", standby.url, "--log", log, "--publish")
            child.stdout.readline(), child.stdout.readline()
            for _ in range(3):
                for _ in range(40):
                    editor.edit()
                told = subprocess.run(
                    [*VTMAP, "publish", "--url", leader.url, "--pause", "3"], capture_output=True, text=True
                )
            cases.show(
                "standby: publish --pause",
                (told.returncode, told.stdout.splitlines()[1]),
                (0, "waiting 3 s for who follows the edits"),
            )
            seen = (
                waited(lambda: known(standby)["edits"] == len(editor.acknowledged)),
                features(standby) == features(leader),
                known(standby)["edits"],
            )
            cases.show(
                "standby: three publications with a pause leave nobody behind",
                seen,
                (True, True, len(editor.acknowledged)),
            )
            cases.show(
                "standby: and nothing out of the log",
                waited(lambda: len(log_of(log)) == len(editor.acknowledged) - 1),
                True,
            )
            waits(cases, leader, standby, editor)
            waits_for_logs(cases, leader, log, editor)
            cases.show("standby: --publish publishes it too", waited(lambda: known(standby)["generation"] > 0), True)
            child.terminate()
            child.communicate()
            editor.edit()
            curl(leader.url + "/publish", "-X", "POST")
            cases.show("standby: a published edit is listed", known(leader)["journal"]["forgotten"], 0)
            leader.end()
            with Server(folder, "behind", port=leader.port) as again:
                code, lines = once(again.url, "--to", standby.url, "--log", log)
                told = [line for line in lines if "it has edits up to 122, and" in line]
                cases.show(
                    "standby: one that was away over a publication and a restart is left behind",
                    (code, len(told), "begin it anew from a copy" in " ".join(told).lower()),
                    (1, 1, True),
                )
                with open(log, encoding="utf-8") as file:
                    rows = [json.loads(line) for line in file]
                cases.show(
                    "standby: the log says what it misses, and goes on",
                    rows[-1]["missed"],
                    [123, 123],
                )
                anew(cases, folder, again, standby, editor)


def waits(cases, leader, standby, editor):
    """A publication waits for a standby, and not for ever for one that doesn't answer; so does each command that
    publishes."""
    editor.edit()
    began = time.monotonic()
    told = subprocess.run(
        [*VTMAP, "publish", "--url", leader.url, "--standby", standby.url], capture_output=True, text=True
    )
    seen = told.returncode, told.stdout.splitlines()[1], told.stderr, time.monotonic() - began < 30
    cases.show("standby: publish --standby", seen, (0, f"waiting at most 60 s for {standby.url}", "", True))
    words = [*VTMAP, "publish", "--url", leader.url, "--standby", "http://127.0.0.1:1", "--pause", "1"]
    told = subprocess.run(words, capture_output=True, text=True)
    said = (
        "http://127.0.0.1:1 lacks edits that this publication has: if the server is started again before it reads them,"
        " it has to begin anew\n"
    )
    cases.show("standby: publish --standby, which doesn't answer", (told.returncode, told.stderr), (0, said))
    began = time.monotonic()
    os.environ["VTSERVE_PAUSE"] = "1.5"
    Client(leader.url).publish()
    del os.environ["VTSERVE_PAUSE"]
    cases.show("standby: VTSERVE_PAUSE", time.monotonic() - began >= 1.5, True)


def waits_for_logs(cases, leader, log, editor):
    """A publication waits for a log too, and `vtmap watch` looks at it."""
    def asked(path, *words):
        child = subprocess.run([*VTMAP, *words, "--url", leader.url, "--log", path], capture_output=True, text=True)
        return child.returncode, child.stdout.splitlines(), child.stderr

    code, lines, said = asked(log, "publish")
    cases.show("standby: publish --log", (code, lines[1], said), (0, f"waiting at most 60 s for {log}", ""))
    other = log + ".other"
    with open(other + ".at", "w", encoding="ascii") as file:
        file.write(f"{len(editor.acknowledged) - 1}\n")
    code, _, said = asked(other, "publish", "--pause", "1")
    late = (
        f"{other} lacks edits that this publication has: if the server is started again before it reads them,"
        " they are missing in it\n"
    )
    cases.show("standby: publish --log, which lacks an edit", (code, said), (0, late))
    seen = [asked(path, "watch", "--wait", "0.2")[::2] for path in (log, other, log + ".none")]
    cases.show("standby: vtmap watch --log", [code for code, _ in seen], [0, 2, 3])


def anew(cases, folder, leader, standby, editor):
    """--anew stops a standby, copies the disk and starts the standby again."""
    script, port = os.path.join(folder, "anew.sh"), standby.port
    with open(script, "w", encoding="utf-8") as file:
        file.write(f"""set -e
test "$STANDBY" = {standby.url}
kill {standby.child.pid}
while kill -0 {standby.child.pid} 2> /dev/null && ! grep -q Z /proc/{standby.child.pid}/stat; do sleep 0.05; done
rm {standby.disk}
{PROGRAM} copy {leader.disk} {standby.disk}
{PROGRAM} serve {standby.disk} --port {port} --connections 4294967295 --admin > {folder}/anew.log 2>&1 &
echo $! > {folder}/anew.pid
until curl -s {standby.url}/admin/status > /dev/null; do sleep 0.05; done
""")
    editor.edit()
    code, lines = once(leader.url, "--to", standby.url, "--anew", f"bash {script}")
    seen = code, known(standby)["edits"], features(standby) == features(leader)
    cases.show("standby: --anew begins it anew", seen, (0, len(editor.acknowledged), True))
    with open(os.path.join(folder, "anew.pid"), encoding="utf-8") as file:
        os.kill(int(file.read()), signal.SIGKILL)


class Stage:
    """A server, a standby and who follows, each of which may be killed and started again."""

    def __init__(self, folder):
        self.folder, self.log = folder, os.path.join(folder, "long.jsonl")
        self.leader = Server(folder, "long", 65536)
        self.standby = Server(folder, copied(self.leader, folder, "long.standby"))
        atexit.register(self.end_servers)
        self.follower, self.told = None, []
        self.start()
        # Both are followed from the first edit on.
        self.told += [self.follower.stdout.readline() for _ in range(2)]

    def start(self):
        """Starts who follows."""
        words = ["--to", self.standby.url, "--log", self.log, "--publish", "--every", "0.2"]
        self.follower = follow(self.leader.url, *words)

    def kill(self, name):
        """Kills one, and starts it again."""
        if name == "follower":
            self.follower.kill()
            self.told += self.follower.communicate()[0].splitlines()
            self.start()
            return
        server = getattr(self, name)
        server.end(signal.SIGKILL)
        server.child.stdout.close()
        setattr(self, name, Server(self.folder, os.path.basename(server.disk), port=server.port))

    def end(self):
        """Ends all."""
        self.follower.terminate()
        self.told += self.follower.communicate()[0].splitlines()
        self.end_servers()

    def end_servers(self):
        """Ends the server and the standby."""
        for server in (self.leader, self.standby):
            server.__exit__()


def long_follow(cases: Cases, folder: str) -> None:
    """Ten thousand edits while each process is killed, and while the map is published: the numbers are equal, the
    features byte for byte."""
    place = os.path.join(folder, "long_follow")
    os.mkdir(place)
    stage, publications = Stage(place), []
    editor = Editor(stage.leader.port, 7)
    kinds, kills, began = ["leader", "standby", "follower"], 0, time.monotonic()

    def publish():
        words = [*VTMAP, "publish", "--url", stage.leader.url, "--standby", stage.standby.url, "--log", stage.log]
        publications.append(subprocess.run(words, capture_output=True, text=True).returncode)

    publishing = None
    while len(editor.acknowledged) < EDITS:
        if editor.edit():
            publish()
            continue
        made = len(editor.acknowledged)
        if made % PUBLISHED == 0:
            publishing = threading.Thread(target=publish)
            publishing.start()
        elif made % KILLED == 0 and not (publishing and publishing.is_alive()):
            stage.kill(kinds[kills % 3])
            kills += 1
    if publishing:
        publishing.join()
    took = time.monotonic() - began
    has_all = waited(lambda: known(stage.standby)["edits"] == EDITS)
    took_all = time.monotonic() - began
    one, other = known(stage.leader), known(stage.standby)
    cases.show("long-follow: the numbers are equal", (has_all, one["edits"], other["edits"]), (True, EDITS, EDITS))
    cases.show("long-follow: the features, byte for byte", features(stage.leader) == features(stage.standby), True)
    cases.show(
        "long-follow: the log has each acknowledged edit once",
        waited(lambda: log_of(stage.log) == editor.acknowledged),
        True,
    )
    cases.show("long-follow: and what each replaced", has_was(stage.log), True)
    cases.show(
        "long-follow: it was published meanwhile",
        (set(publications), one["generation"] > 2, other["generation"] > 2),
        ({0}, True, True),
    )
    stage.end()
    cases.show(
        "long-follow: nobody was left behind", [line for line in stage.told if "missing" in line or "anew" in line], []
    )
    cases.say(
        f"long-follow: {EDITS:,} edits in {took:.0f} s, {kills} kills, {len(publications)} publications; all at the"
        f" standby after {took_all:.0f} s"
    )
    shutil.rmtree(place)


def away(cases: Cases, folder: str) -> None:
    """Who follows is killed, and away while edits are published twice: nothing is missing then. If the server is
    killed too, the log says which edits it misses, the standby begins anew, and no acknowledged edit is lost."""
    place = os.path.join(folder, "away")
    os.mkdir(place)
    stage = Stage(place)
    editor = Editor(stage.leader.port, 11)

    def edits(count):
        for _ in range(count):
            editor.edit()

    def leave():
        """Kills who follows; then edits are made, and published twice."""
        stage.follower.kill()
        stage.told += stage.follower.communicate()[0].splitlines()
        for _ in range(2):
            edits(40)
            curl(stage.leader.url + "/publish", "-X", "POST")
        edits(10)

    edits(30)
    has_all = waited(lambda: known(stage.standby)["edits"] == 30)
    leave()
    stage.kill("standby")
    seen = known(stage.leader)
    cases.show(
        "away: killed, and away over two publications",
        (has_all, seen["generation"], seen["published"], seen["journal"]["forgotten"]),
        (True, 2, 110, 0),
    )
    stage.start()
    seen = waited(lambda: known(stage.standby)["edits"] == 120), features(stage.standby) == features(stage.leader)
    cases.show("away: the standby has each edit", seen, (True, True))
    seen = waited(lambda: log_of(stage.log) == editor.acknowledged), has_was(stage.log)
    cases.show("away: the log has each edit once, and what it replaced", seen, (True, True))
    leave()
    stage.kill("leader")
    there = {}
    for edit in editor.acknowledged.values():
        there.update(edit)
    there = {number: feature for number, feature in there.items() if feature}
    has = {row["id"]: row["feature"] for page in features(stage.leader) for row in json.loads(page)["features"]}
    cases.show("away: the server is killed too, and has each acknowledged edit", has == there, True)
    code, lines = once(stage.leader.url, "--to", stage.standby.url, "--log", stage.log)
    told = [line for line in lines if "it has edits up to 120, and" in line]
    with open(stage.log, encoding="utf-8") as file:
        rows = [json.loads(line) for line in file]
    missed = [row["missed"] for row in rows if "missed" in row]
    cases.show(
        "away: the standby is left behind, and the log says what it misses",
        (code, len(told), missed, [row["edit"] for row in rows[-10:]]),
        (1, 1, [[121, 200]], list(range(201, 211))),
    )
    anew(cases, place, stage.leader, stage.standby, editor)
    gaps = [line for line in stage.told if "missing" in line or "anew" in line]
    cases.show("away: nobody was told of a gap before", gaps, [])
    stage.end_servers()
    shutil.rmtree(place)


def of_bytes(length):
    """A feature whose JSON, as short as it can be, has so many bytes."""
    one = {
        "layer": "p",
        "minzoom": 0,
        "maxzoom": 0,
        "geometry": {"points": [[4000000000 + at, 4000000000] for at in range(2700)]},
        "tags": {},
    }
    one["tags"] = {f"k{at}": "" for at in range(10, 40)}
    missing = length - len(short(one))
    for name in one["tags"]:
        one["tags"][name] = "x" * min(missing, 1000)
        missing -= len(one["tags"][name])
    return one


def short(value):
    """JSON without a byte too many."""
    return json.dumps(value, separators=(",", ":"), sort_keys=True)


def large(cases: Cases, folder: str) -> None:
    """A PUT takes 65,536 bytes of JSON; `{"changes":[{"feature":..,"put":N}]}` around it is 33 bytes and the digits
    of N longer, which no batch takes."""
    with Server(folder, "large", 65536) as leader, Server(folder, copied(leader, folder, "large_standby")) as standby:
        for number, length in [(2, 65502), (2, 65503), (3, 65536), (2 ** 63 - 1, 65536)]:
            reply = curl(f"{leader.url}/features/{number}", "-X", "PUT", body=short(of_bytes(length)))
            cases.show(f"standby: a PUT of {length:,} bytes", reply[0], "HTTP/1.1 200 OK")
        curl(leader.url + "/features/4", "-X", "PUT", body=feature())
        code, lines = once(leader.url, "--to", standby.url)
        seen = code, known(standby)["edits"], features(standby) == features(leader)
        cases.show(
            "standby: each is made at the standby, and what comes after it",
            seen if seen[0] == 0 else (seen, lines),
            (0, 5, True),
        )
        curl(leader.url + "/features/5", "-X", "PUT", body=short(of_bytes(65536)))
        curl(leader.url + "/features/6", "-X", "DELETE")
        curl(leader.url + "/features/5", "-X", "DELETE")

        def meddles(method, _):
            if method == "PUT":
                curl(standby.url + "/features/99", "-X", "PUT", body=feature())

        with Between(standby, before=meddles) as between:
            code, lines = once(leader.url, "--to", between.url)
        cases.show(
            "standby: somebody else's edit just before one is found",
            (code, "was edited by somebody else" in lines[-1]),
            (1, True),
        )
    with Server(folder, "large_lost", 65536) as leader, Server(
        folder, copied(leader, folder, "large_lost_standby")
    ) as standby:
        curl(leader.url + "/features/1", "-X", "PUT", body=short(of_bytes(65536)))
        curl(leader.url + "/features/2", "-X", "PUT", body=feature())
        lost = []

        def loses(method, _):
            if method != "PUT" or lost:
                return False
            lost.append(method)
            return True

        with Between(standby, loses=loses) as between:
            child = follow(leader.url, "--to", between.url, "--every", "0.05")
            has_all = waited(lambda: known(standby)["edits"] == 2, 30)
            child.terminate()
            child.communicate()
        cases.show(
            "standby: a large one whose reply is lost is made once",
            (lost, has_all, features(standby) == features(leader)),
            (["PUT"], True, True),
        )


def histories(cases: Cases, folder: str) -> None:
    """A leader that is put back from an older copy, and edited: it is another map, also where no edit is listed by
    both."""
    versions = itertools.count(1)

    def put(server, number, **tags):
        curl(f"{server.url}/features/{number}", "-X", "PUT", body=feature(tags=tags or {"v": next(versions)}))

    with Server(folder, "history", 4096) as leader:
        put(leader, 1), put(leader, 2)
        old = copied(leader, folder, "history_old")
        put(leader, 3)
        name = copied(leader, folder, "history_standby")
        put(leader, 2), put(leader, 4)
        with Server(folder, name) as standby:
            code, _ = once(leader.url, "--to", standby.url)
            cases.show(
                "standby: one whose features later edits change",
                (code, features(standby) == features(leader)),
                (0, True),
            )
            subprocess.run([*VTMAP, "publish", "--url", standby.url], check=True, capture_output=True)
            standby.end()
        with Server(folder, name) as standby:
            code, _ = once(leader.url, "--to", standby.url)
            cases.show("standby: one that lists no edit any more", (code, known(standby)["edits"]), (0, 5))
            leader.end(signal.SIGKILL)
            with Server(folder, old) as back:
                for number in (30, 31, 2, 4):
                    put(back, number)
                before = features(standby)
                code, lines = once(back.url, "--to", standby.url)
                said = "feature 2 of " + standby.url in lines[-1] and "put back from a copy" in lines[-1]
                cases.show(
                    "standby: a leader that was put back from an older copy",
                    (code, said, features(standby) == before),
                    (1, True, True),
                )
    with Server(folder, "twice", 4096) as leader:
        put(leader, 1)
        old = copied(leader, folder, "twice_old")
        put(leader, 2), put(leader, 3, same="same")
        with Server(folder, copied(leader, folder, "twice_standby")) as standby, Server(folder, old) as back:
            put(back, 4), put(back, 3, same="same")
            code, lines = once(back.url, "--to", standby.url)
            said = "feature 2 of " + standby.url in lines[-1]
            cases.show(
                "standby: one whose last edit is the same after another one",
                (code, said, known(standby)["edits"]),
                (1, True, 3),
            )
            words = ["watch", "--url", back.url, "--standby", standby.url, "--wait", "0.2"]
            child = subprocess.run([*VTMAP, *words], capture_output=True, text=True)
            said = f"the standby {standby.url} has another map than the server after edit 3" in child.stdout
            cases.show("standby: vtmap watch says that the maps differ", (child.returncode, said), (2, True))
    replaced(cases, folder, put)


def replaced(cases, folder, put):
    """A leader is replaced by an older copy of itself while it is followed, with other edits of the same numbers.

    The last edit of both is the same.
    """
    with Server(folder, "replaced", 4096) as leader:
        put(leader, 1)
        old = copied(leader, folder, "replaced_old")
        put(leader, 2)
        with Server(folder, copied(leader, folder, "replaced_standby")) as standby:
            child = follow(leader.url, "--to", standby.url)
            child.stdout.readline()
            put(leader, 3, same="same")
            seen = waited(lambda: known(standby)["edits"] == 3), digest_of(leader) == digest_of(standby)
            cases.show("standby: digests are equal after equal edits", seen, (True, True))
            child.send_signal(signal.SIGSTOP)
            leader.end(signal.SIGKILL)
            with Server(folder, old, port=leader.port) as back:
                put(back, 4), put(back, 3, same="same")
                child.send_signal(signal.SIGCONT)
                lines = child.communicate(timeout=60)[0].splitlines()
                said = "feature 2 of " + standby.url in lines[-1] and "put back from a copy" in lines[-1]
                got = child.returncode, said
                cases.show("standby: a leader that is replaced by an older copy meanwhile", got, (1, True))
                edit = short({"changes": [{"put": 5, "feature": json.loads(feature())}]})
                digests = digest_of(back), digest_of(standby)
                replies = [curl(f"{standby.url}{AT}4?after={each}", "-X", "POST", body=edit) for each in digests]
                cases.show(
                    "standby: an edit is made of one map alone",
                    [(reply[0].split()[1], reply[2]) for reply in replies],
                    [("409", b"Digest\n"), ("200", b'{"edit":4}')],
                )


def digest_of(server):
    """The digest of a map, as the status and the end of the list of edits tell it."""
    status = known(server)
    listed = json.loads(curl(f"{server.url}/admin/edits/from/{status['edits'] + 1}")[2])
    return status["digest"] if listed["digest"] == status["digest"] else None


def standby(cases: Cases, folder: str) -> None:
    """Standbys and a log."""
    place = os.path.join(folder, "standby_part")
    os.mkdir(place)
    basics(cases, place)
    behind(cases, place)
    away(cases, place)
    large(cases, place)
    histories(cases, place)
    shutil.rmtree(place)
