"""The part `confirmed` of run.py: `serve --standby-needed` and the feed that waits, by the table of docs/HTTP.md. What
waits is looked at for a few tenths of a second; what may take five seconds is waited for."""
import contextlib
import json
import os
import signal
import socket
import subprocess
import threading
import time
from collections.abc import Iterator
from typing import Any, Optional

from .gateways import Gateway, Gis, point
from .stand import JSON, PROGRAM, SHOWN, VTMAP, Cases, Reply, Server, curl, feature, refusal, same, wanted

# A request: its method, its path and its body.
Asked = tuple[str, str, str]

NEEDED = ("--admin", "--standby-needed")
SHORT = 0.3
SAID = "nothing was changed: no second machine has the map's last edits just now"


class Peer:
    """A connection that sends requests and looks at what has come."""

    def __init__(self, server: Server) -> None:
        self.socket = socket.create_connection(("127.0.0.1", server.port))

    def send(self, *requests: Asked) -> None:
        """Sends requests, each a method, a path and a body."""
        for method, path, body in requests:
            head = f"{method} {path} HTTP/1.1\r\nhost: a\r\ncontent-length: {len(body)}\r\n\r\n"
            self.socket.sendall((head + body).encode())

    def content(self, longest: float = SHORT) -> Optional[str]:
        """The content of the next reply, None if none comes, and `ended` if the connection ends before."""
        self.socket.settimeout(longest)
        try:
            head = b""
            while not head.endswith(b"\r\n\r\n"):
                byte = self.socket.recv(1)
                if not byte:
                    return "ended"
                head += byte
            length = int(head.lower().split(b"content-length: ")[1].split(b"\r\n")[0])
            content = b""
            while len(content) < length:
                content += self.socket.recv(length - len(content))
            return content.decode()
        except TimeoutError:
            return None

    def __enter__(self) -> "Peer":
        return self

    def __exit__(self, *fault: object) -> None:
        self.socket.close()


def peer(stack: contextlib.ExitStack, server: Server, *requests: Asked) -> Peer:
    """A connection that has sent these requests."""
    made = stack.enter_context(Peer(server))
    made.send(*requests)
    return made


def put(number: int) -> Asked:
    """The request that puts a feature."""
    return "PUT", f"/features/{number}", feature()


def asks(number: int, more: str = "?standby") -> Asked:
    """The request of a standby that has all edits before this number."""
    return "GET", f"/admin/edits/from/{number}{more}", ""


def confirm(server: Server, last: int) -> Reply:
    """A standby says that it has the edits up to this one."""
    return curl(f"{server.url}/admin/edits/from/{last + 1}?standby")


def known(server: Server) -> Any:
    """What the server tells of itself."""
    return json.loads(curl(server.url + "/admin/status")[2])


def edits(server: Server) -> int:
    return known(server)["edits"]


def confirmed(cases: Cases, folder: str) -> None:
    """A server that needs a standby."""
    wrong = subprocess.run(
        [PROGRAM, "serve", "--port", "1", "--connections", "1", "--standby-needed", "a.disk"],
        capture_output=True,
        text=True,
    )
    cases.show("--standby-needed without --admin", (wrong.returncode, "--admin" in wrong.stderr), (2, True))
    with Server(folder, "confirmed", 65536, more=NEEDED) as server:
        unheard(cases, server)
        told_to_people(cases, server, folder)
        held(cases, server)
        more_edits(cases, server)
        resting(cases, server)
        away(cases, server)
    after_a_start(cases, folder)
    without_the_option(cases, folder)
    stopped_standby(cases, folder)
    killed_leader(cases, folder)


def unheard(cases: Cases, server: Server) -> None:
    """Before a standby was heard of."""
    posts = [("/edits", "x"), ("/admin/edits", "{}"), ("/admin/edits/at/1", "{}")]
    for method, path, body in [put(1), ("DELETE", "/features/1", ""), *(("POST", *post) for post in posts)]:
        same(
            cases,
            f"no standby: {method} {path}",
            curl(server.url + path, "-X", method, body=body),
            refusal(503, "Standby"),
        )
    same(cases, "no standby: a feature is asked for", curl(server.url + "/features/1"), refusal(404, "NotFound"))
    code, said = watch(server)
    cases.show("no standby: vtmap watch", (code, "has heard of none since it started" in said), (2, True))
    status = known(server)
    cases.show(
        "no standby: nothing was changed, and the status says so",
        (status["edits"], status["standby"]),
        (0, {"confirmed": 0, "heard": None}),
    )


def told_to_people(cases: Cases, server: Server, folder: str) -> None:
    """What QGIS and `vtmap` say meanwhile."""
    with Gateway(folder, server.url, "--layer", "p:points") as gateway:
        gis = Gis(gateway, "p.points")
        cases.show("no standby: what QGIS shows", SAID in gis.save(gis.insert(point(9.0, 9.0))), True)
    path = os.path.join(folder, "one.jsonl")
    with open(path, "w", encoding="utf-8") as file:
        file.write(json.dumps({"id": 1, "feature": json.loads(feature())}) + "\n")
    child = subprocess.run([*VTMAP, "load", path, "--url", server.url], capture_output=True, text=True)
    cases.show(
        "no standby: what vtmap says", (child.returncode != 0, SAID in child.stdout + child.stderr), (True, True)
    )
    cases.show("no standby: nothing was changed by them", edits(server), 0)


def watch(server: Server) -> tuple[int, str]:
    """The status of `vtmap watch`, and what it prints."""
    child = subprocess.run([*VTMAP, "watch", "--url", server.url, "--wait", "0.1"], capture_output=True, text=True)
    return child.returncode, child.stdout


def held(cases: Cases, server: Server) -> None:
    """A reply that waits."""
    confirm(server, 0)
    with contextlib.ExitStack() as stack:
        one = peer(stack, server, put(1))
        cases.show("an edit is made, and its reply waits", (one.content(), edits(server)), (None, 1))
        same(cases, "others read it", curl(server.url + "/features/1"), wanted(200, JSON, SHOWN))
        plain = curl(server.url + "/admin/edits/from/2")
        cases.show(
            "who asks without being a standby confirms nothing",
            (plain[2], one.content()),
            (none_after(server, 1).encode(), None),
        )
        beyond = confirm(server, 6)
        cases.show("nor does who has more edits than there are", (beyond[0].split()[1], one.content()), ("404", None))
        curl(server.url + "/admin/edits/from/2?standbys")
        cases.show("nor another word", one.content(), None)
        confirm(server, 1)
        cases.show("it is sent once a standby has it", one.content(5), '{"edit":1}')
        one.send(put(2), put(3), ("GET", "/features/3", ""))
        cases.show(
            "requests sent together: the second isn't made before the first is confirmed",
            (one.content(), edits(server)),
            (None, 2),
        )
        confirm(server, 2)
        cases.show("then it is", (one.content(5), one.content(), edits(server)), ('{"edit":2}', None, 3))
        confirm(server, 3)
        cases.show(
            "and the third is answered", (one.content(5), '"layer"' in (one.content(5) or "")), ('{"edit":3}', True)
        )


def more_edits(cases: Cases, server: Server) -> None:
    """Other edits."""
    with contextlib.ExitStack() as stack:
        batch = peer(stack, server, ("POST", "/edits", '{"changes":[{"delete":2},{"delete":3}]}'))
        cases.show("a batch waits", batch.content(), None)
        deletion = peer(stack, server, ("DELETE", "/features/1", ""))
        cases.show("a deletion waits", deletion.content(), None)
        confirm(server, 4)
        cases.show("only what is confirmed is sent", (batch.content(5), deletion.content()), ('{"edit":4}', None))
        confirm(server, 5)
        cases.show("then the other", deletion.content(5), '{"edit":5}')
        same(
            cases,
            "an edit that is refused doesn't wait",
            curl(server.url + "/features/1", "-X", "DELETE"),
            refusal(404, "NotFound"),
        )
        body = '{"changes":[{"put":1,"feature":%s}]}' % feature()
        reply = curl(server.url + "/admin/edits/at/9", "-X", "POST", body=body)
        same(cases, "nor one of another number", reply, refusal(409, "Next 6"))
        waits, bad = peer(stack, server, put(1)), peer(stack, server)
        bad.socket.sendall(b"PUT /features/1 HTTP/1.1\r\ncontent-length: 0\r\n\r\n")
        cases.show(
            "nor a request that is refused, while an edit waits", (bad.content(5), waits.content()), ("Host\n", None)
        )
        confirm(server, 6)
        cases.show("and that is sent then", waits.content(5), '{"edit":6}')
        with Peer(server) as gone:
            gone.send(put(1))
            time.sleep(0.1)
        confirm(server, 7)
        cases.show("who hangs up: the edit is made", edits(server), 7)


def none_after(server: Server, last: int) -> str:
    """The list of the edits after the last one."""
    return f'{{"digest":"{known(server)["digest"]}","edits":[],"last":{last}}}'


def resting(cases: Cases, server: Server) -> None:
    """Requests for edits that wait."""
    with contextlib.ExitStack() as stack:
        one = peer(stack, server, asks(8, "?wait=30&standby"))
        other = peer(stack, server, asks(8, "?standby&wait=30"))
        reader = peer(stack, server, asks(8, "?wait=30"))
        editor = peer(stack, server, put(4))
        found = ['"edit":8' in (each.content(5) or "") for each in (one, other, reader)]
        cases.show("all who wait get the edit", found, [True, True, True])
        cases.show("it isn't confirmed by that", editor.content(), None)
        other.send(asks(9, "?standby&wait=30"))
        cases.show("one standby is enough", editor.content(5), '{"edit":8}')
        began = time.monotonic()
        none = none_after(server, 8)
        cases.show("a standby waits two seconds", other.content(9), none)
        cases.show("not less, not more", 1.8 < time.monotonic() - began < 4, True)
        began = time.monotonic()
        cases.show(
            "another for as long as it says",
            peer(stack, server, asks(9, "?wait=1")).content(9),
            none,
        )
        cases.show("for a second", 0.9 < time.monotonic() - began < 3, True)
        for text in ("", "?wait=0", "?wait=x", "?wait=", "?wait", "?waits=9", "?wait=99999999999999999999"):
            cases.show(f"no wait: {text}", peer(stack, server, asks(9, text)).content(5), none)
        cases.show("HEAD doesn't wait", peer(stack, server, ("HEAD", "/admin/edits/from/9?wait=9", "")) and
                   status_line(curl(server.url + "/admin/edits/from/9?wait=9", "-I")), "200")
        late = peer(stack, server, asks(9, "?wait=30"), ("GET", "/admin/edits/from/9", ""))
        cases.show("what is sent behind it waits too", late.content(), None)
        with Peer(server) as gone:
            gone.send(asks(9, "?wait=30"))
    cases.show("who hangs up while it waits: the server goes on", edits(server), 8)


def status_line(reply: Reply) -> str:
    return reply[0].split()[1]


def away(cases: Cases, server: Server) -> None:
    """A standby that comes no more."""
    confirm(server, 8)
    with contextlib.ExitStack() as stack:
        began = time.monotonic()
        editor = peer(stack, server, put(5))
        cases.show("an edit under way gets no reply", editor.content(20), "ended")
        cases.show("after five seconds", 4.8 < time.monotonic() - began < 8, True)
        began = time.monotonic()
        same(
            cases,
            "then edits are refused",
            curl(server.url + "/features/6", "-X", "PUT", body=feature()),
            refusal(503, "Standby"),
        )
        cases.show("at once, and nothing is changed", (time.monotonic() - began < 2, edits(server)), (True, 9))
        cases.show(
            "the log has a word for it", sum(line.endswith(" requests, unconfirmed") for line in server.lines()), 1
        )
        confirm(server, 8)
        code, said = watch(server)
        cases.show("vtmap watch: a standby lacks an edit", (code, "has edits up to 8 of 9" in said), (2, True))
        same(
            cases,
            "also while a standby lacks the edit",
            curl(server.url + "/features/6", "-X", "PUT", body=feature()),
            refusal(503, "Standby"),
        )
        confirm(server, 9)
        again = peer(stack, server, put(6))
        cases.show("until it has it", again.content(), None)
        curl(server.url + "/admin/edits/from/10?standby")
        cases.show("the status says what is confirmed", known(server)["standby"], {"confirmed": 9, "heard": 0})
        confirm(server, 10)
        cases.show("and then edits are acknowledged", again.content(5), '{"edit":10}')
        cases.show("a publication doesn't wait", status_line(curl(server.url + "/publish", "-X", "POST")), "200")


def after_a_start(cases: Cases, folder: str) -> None:
    """The same disk, served again."""
    with Server(folder, "confirmed", more=NEEDED) as server:
        confirm(server, 9)
        same(
            cases,
            "after a start a standby has to have all edits",
            curl(server.url + "/features/7", "-X", "PUT", body=feature()),
            refusal(503, "Standby"),
        )
        confirm(server, 10)
        with contextlib.ExitStack() as stack:
            editor = peer(stack, server, put(7))
            cases.show("then an edit is made", (editor.content(), edits(server)), (None, 11))
            confirm(server, 11)
            cases.show("and confirmed", editor.content(5), '{"edit":11}')


def without_the_option(cases: Cases, folder: str) -> None:
    """A server that needs no standby."""
    with Server(folder, "unconfirmed") as server:
        cases.show(
            "without the option an edit waits for nobody",
            curl(server.url + "/features/1", "-X", "PUT", body=feature())[2],
            b'{"edit":1}',
        )
        cases.show("the status says nothing of standbys", "standby" in known(server), False)
        with contextlib.ExitStack() as stack:
            one = peer(stack, server, asks(2, "?wait=30&standby"))
            cases.show("the feed waits", one.content(), None)
            curl(server.url + "/features/2", "-X", "PUT", body=feature())
            cases.show("for the next edit", '"edit":2' in (one.content(5) or ""), True)


@contextlib.contextmanager
def two_machines(folder: str, name: str) -> Iterator[tuple[Server, Server, subprocess.Popen]]:
    """A server that needs a standby, the standby, and what follows."""
    with Server(folder, name, 65536, more=NEEDED) as leader:
        subprocess.run([PROGRAM, "copy", leader.disk, leader.disk + ".standby"], check=True, stdout=subprocess.DEVNULL)
        with Server(folder, name + ".standby") as follower:
            words = [*VTMAP, "follow", "--url", leader.url, "--to", follower.url]
            child = subprocess.Popen(words, stdout=subprocess.DEVNULL, stderr=subprocess.DEVNULL)
            try:
                yield leader, follower, child
            finally:
                child.kill()
                child.wait()


def acknowledged(server: Server, number: int) -> bool:
    """Whether an edit is acknowledged in the end."""
    for _ in range(200):
        if status_line(curl(f"{server.url}/features/{number}", "-X", "PUT", body=feature())) == "200":
            return True
        time.sleep(0.05)
    return False


def stopped_standby(cases: Cases, folder: str) -> None:
    """A standby that stands still for a while."""
    with two_machines(folder, "stopped") as (leader, follower, _):
        cases.show("vtmap follow: an edit is acknowledged", acknowledged(leader, 1), True)
        cases.show("it is there", edits(follower), edits(leader))
        follower.child.send_signal(signal.SIGSTOP)
        began = time.monotonic()
        reply = curl(leader.url + "/features/2", "-X", "PUT", body=feature())
        cases.show(
            "a standby that is stopped: no reply",
            (reply[0].split()[0], 4.8 < time.monotonic() - began < 9),
            ("curl", True),
        )
        same(
            cases,
            "then edits are refused",
            curl(leader.url + "/features/3", "-X", "PUT", body=feature()),
            refusal(503, "Standby"),
        )
        follower.child.send_signal(signal.SIGCONT)
        began = time.monotonic()
        cases.show(
            "once it goes on they are acknowledged",
            (acknowledged(leader, 4), time.monotonic() - began < 5),
            (True, True),
        )
        cases.show(
            "it has them all",
            (edits(follower), curl(follower.url + "/features/2")[2]),
            (edits(leader), curl(leader.url + "/features/2")[2]),
        )


def edit_until(server: Server, number: int, end: float, told: list[int]) -> None:
    """Edits a feature of its own again and again, and notes what was acknowledged."""
    with contextlib.suppress(OSError), Peer(server) as editor:
        while time.monotonic() < end:
            editor.send(("PUT", f"/features/{number}", feature(tags={"n": len(told)})))
            content = editor.content(8)
            if content is None or content == "ended":
                return
            if content.startswith('{"edit"'):
                told.append(json.loads(content)["edit"])


def killed_leader(cases: Cases, folder: str) -> None:
    """The first machine is killed under ten editors, and its disk is gone."""
    with two_machines(folder, "killed") as (leader, follower, child):
        cases.show("two machines: an edit is acknowledged", acknowledged(leader, 100), True)
        told: list[list[int]] = [[] for _ in range(10)]
        end = time.monotonic() + 5
        threads = [
            threading.Thread(target=edit_until, args=(leader, number, end, row)) for number, row in enumerate(told)
        ]
        for thread in threads:
            thread.start()
        time.sleep(1.5)
        leader.end(signal.SIGKILL)
        os.remove(leader.disk)
        for thread in threads:
            thread.join()
        time.sleep(0.5)
        child.kill()
        made, greatest = sum(map(len, told)), max((max(row) for row in told if row), default=0)
        cases.show("edits were acknowledged", made > 10, True)
        cases.show("the standby has each that was", greatest <= edits(follower), True)
        features = [json.loads(curl(f"{follower.url}/features/{number}")[2]) for number, row in enumerate(told) if row]
        counts = [len(row) for row in told if row]
        enough = [each["tags"]["n"] + 1 >= count for each, count in zip(features, counts)]
        cases.show("and its feature", all(enough), True)
