"""The part `takeover` of run.py: a machine dies in the middle of edits, its disk with it, and the standby takes its
place. The edits that were acknowledged are compared with the standby's one by one."""
import json
import os
import shutil
import signal
import subprocess
import time

from .several_maps import Here
from .standby import Editor, copied, features, follow, known, once, waited
from .stand import TOP, VTMAP, Cases, Nginx, Server, curl, feature, free_port, status_of

# The edits before the machine dies, and the seconds between two of them.
BEFORE, BETWEEN = 150, 0.02


def listed(server):
    """The edits that a server lists, by their numbers: what they put, None for what they delete."""
    found, number = {}, 1
    while True:
        reply = json.loads(curl(f"{server.url}/admin/edits/from/{number}")[2])
        for edit in reply["edits"]:
            found[edit["edit"]] = {
                change.get("put", change.get("delete")): change.get("feature") for change in edit["changes"]
            }
        number = len(found) + 1
        if number > reply["last"]:
            return found


class Small(Editor):
    """An editor of small changes, as people make them."""

    def changes(self):
        """The changes of some edit: one."""
        number = self.random.randrange(1, 400)
        return (
            [{"delete": number}]
            if number in self.there and self.random.random() < 0.3
            else [{"put": number, "feature": self.feature()}]
        )


def dies(cases, folder, every):
    """One death. Returns the old machine's disk, the standby, and the editor."""
    leader = Server(folder, f"leader {every}", 65536)
    standby = Server(folder, copied(leader, folder, f"standby {every}"))
    follower = follow(leader.url, "--to", standby.url, "--every", str(every))
    follower.stdout.readline()
    editor, times = Small(leader.port, 5), {}
    for number in range(1, BEFORE + 1):
        editor.edit()
        times[number] = time.monotonic()
        time.sleep(BETWEEN)
    leader.end(signal.SIGKILL)
    died = time.monotonic()
    leader.__exit__()
    os.rename(leader.disk, leader.disk + ".gone")
    said = follower.stdout.readline()
    follower.terminate()
    follower.communicate()
    has = listed(standby)
    same = has == {number: editor.acknowledged[number] for number in range(1, len(has) + 1)}
    cases.show(
        f"takeover: the first edits are at the standby, one by one, --every {every}",
        (same, said.endswith(": waiting\n")),
        (True, True),
    )
    late = [died - times[number] for number in times if number > len(has)]
    cases.show(
        "takeover: and what it lacks is as young as it waits, and 5 s where the machine is busy",
        max(late, default=0) < every + 5 or late,
        True,
    )
    cases.say(
        f"takeover: of {BEFORE} edits {len(late)} are lost with the machine, the oldest made"
        f" {max(late, default=0):.2f} s before; --every {every}"
    )
    return leader, standby


def takes_over(cases, folder, old, standby):
    """The standby is edited and published. The old machine comes back: with its old disk it is refused, with a copy
    it is the standby."""
    edits = known(standby)["edits"]
    editor = Small(standby.port, 9)
    editor.acknowledged = dict.fromkeys(range(1, edits + 1))
    for _ in range(20):
        editor.edit()
    cases.show("takeover: edits go on at the standby", known(standby)["edits"], edits + 20)
    told = subprocess.run([*VTMAP, "publish", "--url", standby.url], capture_output=True, text=True)
    cases.show("takeover: and publications", (told.returncode, told.stdout.splitlines()[-1]), (0, "published"))
    standby.restart()
    os.rename(old.disk + ".gone", old.disk)
    with Server(folder, os.path.basename(old.disk)) as back:
        code, lines = once(standby.url, "--to", back.url)
        # It has other edits under the same numbers, or more of them, or lacks some that are listed no more.
        why = any(words in lines[-1] for words in ("somebody else", "another map", "no longer lists edit"))
        cases.show("takeover: the old disk is no standby any more", (code, why), (1, True))
    with Server(folder, copied(standby, folder, "again")) as again:
        follower = follow(standby.url, "--to", again.url)
        for _ in range(20):
            editor.edit()
        has_all = waited(lambda: known(again)["edits"] == edits + 40)
        cases.show("takeover: a copy is", (has_all, features(again) == features(standby)), (True, True))
        follower.terminate()
        follower.communicate()


def breaks(cases: Cases, folder: str) -> None:
    """The disk fails, by strace: a broken server still lists what it has acknowledged, and not the edit in doubt;
    and after a restart that too, if it was stored."""
    if not shutil.which("strace"):
        cases.say("takeover: no strace: no disk fails")
        return
    failing = [
        "strace",
        "-f",
        "-o",
        os.path.join(folder, "calls"),
        "-e",
        "trace=fdatasync",
        "-e",
        "inject=fdatasync:error=EIO:when=90+",
    ]
    made = Server(folder, "failing", 65536)
    made.end()
    made.__exit__()
    with Server(folder, copied(made, folder, "healthy")) as standby:
        with Server(folder, "failing", port=made.port, under=failing) as leader:
            follower = follow(leader.url, "--to", standby.url)
            follower.stdout.readline()
            statuses = []
            while statuses[-1:] != [500] and len(statuses) < 200:
                statuses.append(status_of(curl(f"{leader.url}/features/{len(statuses)}", "-X", "PUT", body=feature())))
            acknowledged = statuses.count(200)
            has_all = waited(lambda: known(standby)["edits"] == acknowledged)
            cases.show(
                "takeover: a broken server lists each acknowledged edit",
                (has_all, known(leader)["broken"], acknowledged > 9),
                (True, True, True),
            )
            time.sleep(1)
            cases.show(
                "takeover: and not the one in doubt",
                (known(standby)["edits"], sorted(listed(leader))),
                (acknowledged, [*range(1, acknowledged + 1)]),
            )
            server = subprocess.run(["pgrep", "-P", str(leader.child.pid)], capture_output=True, text=True).stdout
            os.kill(int(server), signal.SIGKILL)
            leader.child.wait(60)
        with Server(folder, "failing", port=made.port) as leader:
            curl(f"{leader.url}/features/1000", "-X", "PUT", body=feature())
            edits = known(leader)["edits"]
            has_all = waited(lambda: known(standby)["edits"] == edits)
            seen = has_all, edits - acknowledged in (1, 2), features(leader) == features(standby)
            cases.show("takeover: after a restart they are equal again", seen, (True, True, True))
            cases.say(
                f"takeover: after {acknowledged} edits a sync failed; the edit in doubt was"
                f" {'' if edits - acknowledged == 2 else 'not '}stored"
            )
        follower.terminate()
        follower.communicate()


CLOSED = '"~^ (POST|PUT|DELETE|PATCH)$" 1;\n'
STARTED = [
    "disable --now vtserve-standby.service",
    (
        "enable --now vtserve-nginx.service vtserve-publish.timer vtserve-watch.timer vtserve-backup.timer"
        " vtserve-log.service"
    ),
    "start --no-block vtserve-publish.service vtserve-backup.service",
]


def by_a_command(cases: Cases, folder: str) -> None:
    """`vtmap takeover` on the second machine, which nginx serves to readers from the start."""
    program = shutil.which("nginx", path=os.environ.get("PATH", "") + ":/usr/sbin")
    if not program:
        cases.say("takeover: no nginx: no command takes over")
        return
    place = os.path.join(folder, "by_a_command")
    os.mkdir(place)
    here = Here(place)
    for part in ("etc/vtserve/nginx-maps", "var/lib/vtserve-nginx"):
        os.makedirs(here.path(part))
    leader = Server(place, "leader")
    curl(f"{leader.url}/features/1", "-X", "PUT", body=feature())
    with Server(place, copied(leader, place, "standby")) as standby, Nginx(program, place, standby) as front:
        here.has_front(program, front)
        front_file = here.path("etc/vtserve/nginx.conf")
        with open(here.path("etc/vtserve/nginx-maps/closed.conf"), "w", encoding="utf-8") as file:
            file.write(CLOSED + CLOSED.replace("^ ", "^north "))
        subprocess.run(["systemctl", "reload", "vtserve-nginx.service"], env=here.words)
        words = ["takeover", "--url", standby.url, "--leader", leader.url]
        closed = waited(lambda: status_of(curl(front.url + "/features/9", "-X", "DELETE")) == 503)
        readers = status_of(curl(front.url + "/features/1")), status_of(curl(front.url + "/map/0/0/0.mvt"))
        cases.show(
            "takeover: nobody edits the standby by its nginx, and readers read", (closed, readers), (True, (200, 200))
        )
        looks = [*VTMAP, "watch", "--url", leader.url, "--standby", front.url, "--wait", "0.2"]
        child = subprocess.run(looks, capture_output=True, text=True)
        cases.show(
            "takeover: the first machine looks at it by its nginx",
            (child.returncode, child.stdout.splitlines()),
            (0, ["1 features, edit 1, generation 0: nothing to do"]),
        )
        here.calls()
        cases.show(
            "takeover: without nginx.conf",
            here.vtmap(*words),
            (1, [f"there is no {front_file}: copy that of the first machine"]),
        )
        shutil.copy(os.path.join(TOP, "docs", "nginx.conf"), front_file)
        cases.show(
            "takeover: the first machine answers",
            here.vtmap(*words),
            (
                1,
                [
                    f"{standby.url}: 1 features, edit 1",
                    (
                        f"{leader.url} answers, and has edit 1: stop it, or see to it that nobody edits it any more and"
                        " say --planned"
                    ),
                ],
            ),
        )
        cases.show(
            "takeover: nothing was done",
            [call for call in here.calls() if not call.startswith(("cat ", "--quiet"))],
            [],
        )
        told = here.vtmap(*words, "--dry-run")
        wanted = [f"{leader.url} answers, and has edit 1", *["would be done"] * 4]
        cases.show(
            "takeover: a try while it does", (told[0], [line.split(": ")[0] for line in told[1][1:]]), (0, wanted)
        )
        edit = curl(f"{leader.url}/features/2", "-X", "PUT", body=feature())[2]
        late = here.vtmap(*words, "--planned", "--wait", "1")
        cases.show(
            "takeover: a planned one that lacks an edit",
            (edit, late[0], "edit 2 of " in late[1][-1]),
            (b'{"edit":2}', 1, True),
        )
        cases.show(
            "takeover: nothing was done then",
            [call for call in here.calls() if not call.startswith(("cat ", "--quiet"))],
            [],
        )
        other = feature(tags={"other": True})
        curl(f"{standby.url}/features/3", "-X", "PUT", body=other)
        differs = here.vtmap(*words, "--planned", "--wait", "1"), here.vtmap(*words, "--dry-run")
        said = f"After edit 2 the map of {leader.url} isn't the one here: one of the servers was put back from a copy"
        cases.show(
            "takeover: another map after the same edit",
            (differs[0][0], said in differs[0][1][-1], differs[1][0], said in differs[1][1][1]),
            (1, True, 0, True),
        )
        curl(f"{standby.url}/features/3", "-X", "DELETE")
        leader.end(signal.SIGKILL)
        leader.__exit__()
        told = here.vtmap(*words, "--dry-run")
        cases.show("takeover: a try", (told[0], told[1][1]), (0, f"{leader.url} doesn't answer"))
        by_unit = here.vtmap("takeover", "--url", standby.url, "--dry-run")
        cases.show(
            "takeover: the unit says who is followed",
            (by_unit[0], by_unit[1][1]),
            (0, "http://FIRST:8000 doesn't answer"),
        )
        cases.show(
            "takeover: still nothing was done",
            [call for call in here.calls() if not call.startswith(("cat ", "--quiet"))],
            [],
        )
        with open(front_file, "a", encoding="utf-8") as file:
            file.write("no configuration\n")
        cases.show("takeover: an nginx.conf that nginx refuses", here.vtmap(*words)[0], 1)
        shutil.copy(os.path.join(TOP, "docs", "nginx.conf"), front_file)
        here.calls()
        told = here.vtmap(*words)
        cases.show("takeover: is done", (told[0], told[1][2].split(".")[0]), (0, "taken over: edits go on with 4"))
        called = [call for call in here.calls() if not call.startswith("cat ")]
        cases.show("takeover: what it runs", [call for call in called if call in STARTED], STARTED)
        edit = waited(lambda: curl(front.url + "/features/9", "-X", "PUT", body=feature())[2] == b'{"edit":4}')
        with open(here.path("etc/vtserve/nginx-maps/closed.conf"), encoding="utf-8") as file:
            cases.show(
                "takeover: people edit here, and the line of another map stays",
                (edit, file.read()),
                (True, CLOSED.replace("^ ", "^north ")),
            )
    nobody = here.vtmap("takeover", "--url", f"http://127.0.0.1:{free_port()}", "--leader", leader.url)
    cases.show("takeover: without a standby", nobody[0], 3)


def takeover(cases: Cases, folder: str) -> None:
    """Machines that die."""
    place = os.path.join(folder, "takeover_part")
    os.mkdir(place)
    by_a_command(cases, place)
    for every in (0.1, 0.5, 2):
        old, standby = dies(cases, place, every)
        if every == 0.5:
            takes_over(cases, place, old, standby)
        standby.__exit__()
    breaks(cases, place)
    shutil.rmtree(place)
