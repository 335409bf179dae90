#!/usr/bin/env python3
"""What standbys on one machine serve to readers beside one process: the city of city_features.py, tiles in an order by chance, nginx without a cache.

    python3 bench/speed/replicas.py [PROGRAM [SECONDS]]    PROGRAM is crates/vtserve/out/vtserve, which `rt run` leaves there

Rows: one process and four, each straight and behind docs/nginx.conf with its cache off. For each the replies a second of wrk, and the time of a
processor that a reply takes, in vtserve and in nginx, which other work on the machine doesn't change. Then the longest wait of a reader while the server
begins a publication, and what an edit takes with four standbys. Needs nginx and wrk (Debian: nginx-light, wrk).
"""
import json
import os
import re
import shutil
import subprocess
import sys
import tempfile
import threading
import time

HERE = os.path.dirname(os.path.abspath(__file__))
TOP = os.path.join(HERE, "..", "..")
sys.path[:0] = [HERE, os.path.join(TOP, "tests")]
import city_features  # noqa: E402
from clients.stand import VTMAP, Nginx, Server, curl  # noqa: E402

SECONDS = float(sys.argv[2]) if len(sys.argv) > 2 else 8
ZOOMS, REPLICAS, CONNECTIONS = (12, 13, 14, 15), 4, 16
TICK = os.sysconf("SC_CLK_TCK")
OFF = [("            proxy_cache tiles;\n", "            proxy_cache off;\n"), ("access_log access.log combined if=$is_logged;", "access_log off;")]
LUA = """local paths = {}
for line in io.lines(%r) do paths[#paths + 1] = line end
math.randomseed(os.time())
request = function() return wrk.format("GET", paths[math.random(#paths)]) end
"""


def put_city(url):
    """Puts the features of the city."""
    for first in range(0, city_features.FEATURES, 32):
        changes = [{"put": number, "feature": city_features.city_feature(number)} for number in range(first, min(first + 32, city_features.FEATURES))]
        reply = curl(url + "/edits", body=json.dumps({"changes": changes}))
        assert reply[0].startswith("HTTP/1.1 200"), reply


def processor(pids):
    """The seconds of a processor that processes have taken."""
    total = 0
    for pid in pids:
        with open(f"/proc/{pid}/stat", encoding="utf-8") as file:
            total += sum(map(int, file.read().rpartition(")")[2].split()[11:13]))
    return total / TICK


def children(pid):
    """The processes of a process of nginx."""
    return [int(name) for name in subprocess.run(["pgrep", "-P", str(pid)], capture_output=True, text=True).stdout.split()]


def wrk(url, script):
    """Replies of wrk, and how many a second."""
    words = ["wrk", "-t", "2", "-c", str(CONNECTIONS), "-d", f"{SECONDS:g}s", "-s", script, url]
    told = subprocess.run(words, capture_output=True, text=True).stdout
    assert "Non-2xx" not in told, told
    return int(re.search(r"(\d+) requests in", told)[1]), float(re.search(r"Requests/sec: +([0-9.]+)", told)[1])


def row(name, url, script, servers, front=None):
    """Prints a row."""
    pids, nginx = [server.child.pid for server in servers], children(front.child.pid) if front else []
    before = processor(pids), processor(nginx)
    count, rate = wrk(url, script)
    took = [(now - then) / count * 1e6 for now, then in zip((processor(pids), processor(nginx)), before)]
    print(f"{name:38} {rate:10,.0f} {took[0]:12.0f} {took[1]:12.0f}", flush=True)


def longest(url, paths, stop):
    """The longest wait of a reader, in seconds."""
    most = 0
    while not stop.is_set():
        for path in paths[:50]:
            began = time.monotonic()
            curl(url + path)
            most = max(most, time.monotonic() - began)
    return most


def beginning(name, url, leader, paths):
    """Prints the longest wait of a reader while the server begins a publication."""
    stop, found = threading.Event(), []
    reader = threading.Thread(target=lambda: found.append(longest(url, paths, stop)))
    reader.start()
    time.sleep(0.5)
    curl(leader.url + "/publish/begin", "-X", "POST")
    time.sleep(0.5)
    stop.set()
    reader.join()
    curl(leader.url + "/publish/cancel", "-X", "POST")
    print(f"longest wait of a reader while a publication begins, {name}: {found[0] * 1000:.0f} ms", flush=True)


def edits(leader, replicas):
    """Prints what an edit of one point takes of a processor at the server, at a standby and in `vtmap follow`."""
    words = [*VTMAP, "follow", "--url", leader.url, *(word for one in replicas for word in ("--to", one.url))]
    with subprocess.Popen(words, stdout=subprocess.PIPE, text=True) as follower:
        for _ in replicas:
            follower.stdout.readline()
        time.sleep(1)
        rows = {"the server": [leader.child.pid], "a standby": [one.child.pid for one in replicas], "vtmap follow": [follower.pid]}
        before = {name: processor(pids) for name, pids in rows.items()}
        began, count = time.monotonic(), 2000
        for number in range(count):
            curl(f"{leader.url}/features/{10**6 + number}", "-X", "PUT", body=json.dumps(city_features.city_feature(number)))
        made = time.monotonic() - began
        last = json.loads(curl(leader.url + "/admin/status")[2])["edits"]
        while any(json.loads(curl(one.url + "/admin/status")[2])["edits"] < last for one in replicas):
            time.sleep(0.05)
        print(f"{count:,} edits in {made:.1f} s; the standbys had all {time.monotonic() - began - made:.1f} s later")
        for name, pids in rows.items():
            print(f"an edit takes {name}: {(processor(pids) - before[name]) / count / len(pids) * 1e6:.0f} us of a processor", flush=True)
        follower.terminate()


def main():
    nginx = shutil.which("nginx", path=os.environ.get("PATH", "") + ":/usr/sbin")
    with tempfile.TemporaryDirectory() as folder:
        os.chmod(folder, 0o755)
        paths = [f"/map/{zoom}/{column}/{line}.mvt" for zoom in ZOOMS for column, line in city_features.tiles_at(zoom)]
        script, listed = os.path.join(folder, "paths.lua"), os.path.join(folder, "paths")
        with open(listed, "w", encoding="utf-8") as file:
            file.write("".join(path + "\n" for path in paths))
        with open(script, "w", encoding="utf-8") as file:
            file.write(LUA % listed)
        with Server(folder, "leader", 262144) as leader:
            put_city(leader.url)
            for number in range(REPLICAS):
                shutil.copy(leader.disk, os.path.join(folder, f"replica {number}"))
            replicas = [Server(folder, f"replica {number}") for number in range(REPLICAS)]
            ports = "".join(f"        server 127.0.0.1:{one.port};\n" for one in replicas)
            group = f"    upstream replicas {{\n        least_conn;\n{ports}        keepalive 16;\n    }}\n    map $edit $readers {{\n"
            several = [*OFF, ("    map $edit $readers {\n", group), ('        # "" replicas;', '        "" replicas;')]
            one, four = os.path.join(folder, "1"), os.path.join(folder, "4")
            os.mkdir(one)
            os.mkdir(four)
            print(f"{len(paths):,} tiles of a city of {city_features.FEATURES:,} features, {CONNECTIONS} connections, {os.cpu_count()} processors, "
                  f"load {os.getloadavg()[0]:.0f}")
            print(f"{'':38} {'replies/s':>10} {'us vtserve':>12} {'us nginx':>12}")
            with Nginx(nginx, one, leader, OFF) as front, Nginx(nginx, four, leader, several) as balancing:
                for _ in range(3):
                    row("one process, straight", leader.url, script, [leader])
                    row("nginx, one process", front.url, script, [leader], front)
                    row("nginx, four processes", balancing.url, script, replicas, balancing)
                beginning("one process", front.url, leader, paths)
                beginning("four standbys", balancing.url, leader, paths)
            edits(leader, replicas)
            for server in [leader, *replicas]:
                with open(f"/proc/{server.child.pid}/status", encoding="utf-8") as file:
                    print(re.search(r"VmHWM.*", file.read())[0])
            for server in replicas:
                server.__exit__()


if __name__ == "__main__":
    main()
