"""The part `steps` of run.py: `vtmap publish`, by steps."""
import json
import os
import signal
import subprocess

from .stand import JSON, VTMAP, Cases, Server, curl, feature, refusal, same, wanted


def steps(cases: Cases, folder: str) -> None:
    """A publication by steps, with edits between them, and interrupted."""
    tool = [*VTMAP, "publish", "--url"]
    with Server(folder, "steps", 65536) as server:
        for number in range(100):
            tags = {f"k{at}": f"{number} {at} " + "x" * 1000 for at in range(30)}
            reply = curl(f"{server.url}/features/{number}", "-X", "PUT", body=feature(last=0, tags=tags))
        same(cases, "a hundred features of 30 KB", reply, wanted(200, JSON, '{"edit":100}'))
        child = subprocess.Popen([*tool, server.url], stdout=subprocess.PIPE, stderr=subprocess.PIPE, text=True)
        first = [child.stdout.readline() for _ in range(3)]
        reply = curl(server.url + "/features/0", "-X", "PUT", body=feature(last=0))
        same(cases, "an edit between two steps of vtmap publish", reply, wanted(200, JSON, '{"edit":101}'))
        child.send_signal(signal.SIGTERM)
        rest, told = child.communicate(timeout=120)
        lines = "".join(first) + rest
        cases.show(
            "vtmap publish interrupted",
            (child.returncode, told, "published" in lines),
            (130, "the publication is cancelled\n", False),
        )
        same(cases, "none is under way", curl(server.url + "/publish/step", "-X", "POST"), refusal(409, "Idle"))
        same(cases, "no archive stands", curl(server.url + "/map.pmtiles"), refusal(404, "NotFound"))
        child = subprocess.Popen([*tool, server.url], stdout=subprocess.PIPE, stderr=subprocess.PIPE, text=True)
        child.stdout.readline()
        curl(server.url + "/publish/cancel", "-X", "POST")
        rest, told = child.communicate(timeout=120)
        cases.show(
            "vtmap publish, whose publication somebody else cancels",
            (child.returncode, told.split(",")[0], "published" in rest),
            (1, "the publication is gone", False),
        )
        child = subprocess.run([*tool, server.url], capture_output=True, text=True)
        left = [int(line.split()[0]) for line in child.stdout.splitlines()[1:-1]]
        cases.show(
            "vtmap publish", (child.returncode, child.stderr, child.stdout.splitlines()[-1:]), (0, "", ["published"])
        )
        cases.show(
            "each step is 64 sectors less",
            all(one - other == 64 for one, other in zip(left[:-1], left[1:-1])) and left[-1:] == [0],
            True,
        )
        curl(server.url + "/publish/begin", "-X", "POST")
        record = os.path.join(folder, "published")
        rest = subprocess.run([*tool, server.url, "--record", record], capture_output=True, text=True)
        said = [line for line in rest.stdout.splitlines() if not line.endswith(" left")]
        cases.show(
            "vtmap publish finishes a publication that was left",
            (rest.returncode, rest.stderr, said[0], said[-1]),
            (0, "", "a publication is under way: it is finished first", "published"),
        )
        tags = curl(server.url + "/map.pmtiles", "-I")
        known = subprocess.run([*tool, server.url, "--changed", "--record", record], capture_output=True, text=True)
        cases.show(
            "vtmap publish --changed, with each edit in the archive",
            (known.returncode, known.stderr, known.stdout),
            (0, "", "the archive has each edit already\n"),
        )
        cases.show("it leaves the archive", curl(server.url + "/map.pmtiles", "-I"), tags)
        curl(server.url + "/features/0", "-X", "PUT", body=feature(last=0))
        later = subprocess.run([*tool, server.url, "--changed", "--record", record], capture_output=True, text=True)
        cases.show(
            "vtmap publish --changed, with an edit more",
            (later.returncode, later.stderr, later.stdout.splitlines()[-1:]),
            (0, "", ["published"]),
        )
        curl(server.url + "/publish/begin", "-X", "POST")
        rest = subprocess.run([*tool, server.url, "--cancel"], capture_output=True, text=True)
        cases.show(
            "vtmap publish --cancel drops it", (rest.returncode, rest.stderr), (0, "the publication is cancelled\n")
        )
        with open(record, encoding="utf-8") as file:
            cases.show("vtmap publish --record", json.load(file)["result"], "published")
        gone = server.url
    rest = subprocess.run([*tool, gone, "--record", record], capture_output=True, text=True)
    with open(record, encoding="utf-8") as file:
        cases.show("vtmap publish without a server", (rest.returncode, json.load(file)["result"]), (3, "no reply"))
