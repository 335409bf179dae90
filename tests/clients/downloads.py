"""Of the part `page` of run.py: downloads of the archive through nginx, which limits them."""
import os
import socket
import subprocess
import sys
import time

from .stand import HERE, Nginx, Server, curl, feature, status_of


def slow(front, address, more=""):
    """A download of the archive by a client that reads no more than the status. Gives its connection and the status."""
    peer = socket.socket()
    peer.setsockopt(socket.SOL_SOCKET, socket.SO_RCVBUF, 4096)
    peer.settimeout(30)
    peer.bind((address, 0))
    peer.connect(("127.0.0.1", front.port))
    peer.sendall(f"GET /map.pmtiles HTTP/1.1\r\nhost: localhost\r\n{more}\r\n".encode())
    return peer, peer.recv(12).decode()


def in_files(front):
    """The bytes that nginx keeps of replies in files of its folder `proxy`, which have no names any more."""
    time.sleep(1)
    workers = subprocess.run(
        ["pgrep", "-P", str(front.child.pid)], capture_output=True, text=True, check=True
    ).stdout.split()
    opened = [f"/proc/{worker}/fd/{number}" for worker in workers for number in os.listdir(f"/proc/{worker}/fd")]
    return sum(
        os.stat(path).st_size for path in opened if os.readlink(path).startswith(os.path.join(front.folder, "proxy"))
    )


def downloads(cases, folder, nginx):
    """Downloads of the archive at once: three from an address and eight together, while readers of its parts are
    served as ever."""
    folder = os.path.join(folder, "downloads")
    os.mkdir(folder)
    with Server(folder, "long", 131072) as server, Nginx(nginx, folder, server) as front:
        # Four tiles of 3 MB: more than the system keeps of a connection.
        for number in range(100):
            tags = {f"k{at}": f"{number} {at} " + "x" * 1000 for at in range(30)}
            curl(
                f"{server.url}/features/{number}",
                "-X",
                "PUT",
                body=feature(last=3, geometry={"points": [[number * 1000000, 0]]}, tags=tags),
            )
        curl(server.url + "/publish", "-X", "POST")
        archive = front.url + "/map.pmtiles"
        length = len(curl(archive)[2])
        cases.show("downloads: the archive has over 10 MB", length > 10 ** 7 or length, True)

        def status(address):
            return status_of(curl(archive, "--interface", address))

        peers = [slow(front, "127.0.0.1") for _ in range(3)]
        cases.show("downloads: three from an address", [told for _, told in peers], ["HTTP/1.1 200"] * 3)
        cases.show(
            "downloads: a fourth one, and one from another address",
            [status("127.0.0.1"), status("127.0.0.2")],
            [429, 200],
        )
        kept = in_files(front)
        parts = [slow(front, "127.0.0.1", f"range: bytes=0-{length}\r\n") for _ in range(6)]
        cases.show(
            "downloads: six parts at once from it, however long", [told for _, told in parts], ["HTTP/1.1 206"] * 6
        )
        cases.show("downloads: of which nginx keeps nothing in a file", (kept > 0, in_files(front) - kept), (True, 0))
        reader = [sys.executable, os.path.join(HERE, "read_range.py"), archive, "0/0/0"]
        tile = subprocess.run(reader, capture_output=True, text=True).stdout.strip()
        cases.show(
            "downloads: a reader of PMTiles gets its tile",
            tile == curl(server.url + "/map/0/0/0.hex")[2].decode(),
            True,
        )
        peers += [slow(front, address) for address in ["127.0.0.2"] * 3 + ["127.0.0.3"] * 2]
        cases.show("downloads: eight together", [told for _, told in peers], ["HTTP/1.1 200"] * 8)
        cases.show("downloads: a ninth one, from a further address", status("127.0.0.4"), 429)
        for peer, _ in peers + parts:
            peer.close()
        end = time.monotonic() + 10
        while status("127.0.0.1") != 200 and time.monotonic() < end:
            time.sleep(0.2)
        cases.show("downloads: when they have ended, the next one", status("127.0.0.1"), 200)
