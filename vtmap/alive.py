"""Whether a gateway answers: `vtmap watch` asks it, and the gateway asks itself and tells systemd (sd_notify, `WATCHDOG=1`), which starts a unit
with WatchdogSec= again otherwise. Needs no package."""
import http.client
import os
import socket
import threading
import time

# What a gateway is asked. The reply needs the map, and waits for a save that is being made.
ASKED = "/wfs?SERVICE=WFS&REQUEST=GetCapabilities"


def tell(port: int, asked: str = ASKED) -> None:
    """Begins to ask this process by its port, if systemd waits to be told. It asks three times in the time after which systemd gives it up."""
    name, length = os.environ.get("NOTIFY_SOCKET"), os.environ.get("WATCHDOG_USEC", "")
    if name and length.isdecimal():
        threading.Thread(target=keep_telling, args=(name, int(length) / 3e6, port, asked), daemon=True).start()


def keep_telling(name: str, seconds: float, port: int, asked: str) -> None:
    """Asks, and tells of each reply."""
    while True:
        if answers(port, seconds, asked):
            notify(name, b"WATCHDOG=1")
        time.sleep(seconds)


def answers(port: int, seconds: float, asked: str) -> bool:
    """Whether a reply comes in time, whatever it says."""
    connection = http.client.HTTPConnection("127.0.0.1", port, timeout=seconds)
    try:
        connection.request("GET", asked)
        connection.getresponse().read()
        return True
    except (OSError, http.client.HTTPException):
        return False
    finally:
        connection.close()


def notify(name: str, message: bytes) -> None:
    """Sends a message to systemd. A name with an @ is one of the kernel's own space of names."""
    with socket.socket(socket.AF_UNIX, socket.SOCK_DGRAM) as to:
        try:
            to.sendto(message, "\0" + name[1:] if name.startswith("@") else name)
        except OSError:
            pass
