"""A Chromium without a window that a test drives as a person would: by the mouse, the keyboard, and what is on the
screen.

It is spoken to by the DevTools protocol over two pipes (`--remote-debugging-pipe`), so nothing but the browser is
needed.
"""
import base64
import json
import os
import subprocess
import time
from collections.abc import Iterable
from typing import Any, Optional


# The size of its window in pixels.
WIDE, HIGH = 1000, 640
# The numbers of keys that write nothing.
KEYS = {
    "Backspace": 8,
    "Tab": 9,
    "Enter": 13,
    "Escape": 27,
    " ": 32,
    "PageUp": 33,
    "PageDown": 34,
    "ArrowLeft": 37,
    "ArrowUp": 38,
    "ArrowRight": 39,
    "ArrowDown": 40,
    "Delete": 46,
}
SHIFT, CONTROL = 8, 2


class Broken(Exception):
    """Why the browser doesn't do what it is asked."""


class Browser:
    """A Chromium with a profile of its own in a folder."""

    def __init__(self, folder: str, wide: int = WIDE, high: int = HIGH, more: Iterable[str] = ()) -> None:
        to_browser, self.send = os.pipe()
        self.read, from_browser = os.pipe()
        # The browser reads its descriptor 3 and writes its descriptor 4.
        place = f'exec 3<&{to_browser} 4>&{from_browser}; exec "$@"'
        words = [
            "chromium",
            "--headless=new",
            "--no-sandbox",
            "--remote-debugging-pipe",
            "--hide-scrollbars",
            "--no-first-run",
            *more,
        ]
        words += [f"--user-data-dir={folder}", f"--window-size={wide},{high}", "about:blank"]
        self.size = wide, high
        self.child = subprocess.Popen(
            ["nice", "bash", "-c", place, "chromium", *words],
            pass_fds=[to_browser, from_browser],
            stdout=subprocess.DEVNULL,
            stderr=subprocess.DEVNULL,
        )
        os.close(to_browser)
        os.close(from_browser)
        self.last, self.held = 0, b""
        self.events: list[dict[str, Any]] = []

    def ask(self, method: str, session: Optional[str] = None, **words: object) -> Any:
        """The result of a command."""
        self.last += 1
        asked = {"id": self.last, "method": method, "params": words, **({"sessionId": session} if session else {})}
        os.write(self.send, json.dumps(asked).encode() + b"\0")
        while True:
            told = self.message()
            if told.get("id") == self.last:
                if "error" in told:
                    raise Broken(f"{method}: {told['error']}")
                return told["result"]
            self.events.append(told)

    def message(self) -> dict[str, Any]:
        """The next message of the browser."""
        while b"\0" not in self.held:
            part = os.read(self.read, 1 << 20)
            if not part:
                raise Broken("the browser has ended")
            self.held += part
        text, _, self.held = self.held.partition(b"\0")
        return json.loads(text)

    def open(self, url: str) -> "Page":
        """A page of its own at an address."""
        target = self.ask(
            "Target.createTarget", url="about:blank", newWindow=True, width=self.size[0], height=self.size[1]
        )["targetId"]
        page = Page(self, self.ask("Target.attachToTarget", targetId=target, flatten=True)["sessionId"], target)
        wide, high = self.size
        page.ask("Emulation.setDeviceMetricsOverride", width=wide, height=high, deviceScaleFactor=1, mobile=False)
        page.ask("Emulation.setFocusEmulationEnabled", enabled=True)
        for part in ("Page", "Runtime", "Log"):
            page.ask(part + ".enable")
        page.ask("Page.navigate", url=url)
        page.wait("document.readyState === 'complete'")
        return page

    def __enter__(self) -> "Browser":
        return self

    def __exit__(self, *fault: object) -> None:
        os.close(self.send)
        self.child.terminate()
        self.child.wait(60)
        os.close(self.read)


class Page:
    """A page of the browser."""

    def __init__(self, browser: Browser, session: str, target: str) -> None:
        self.browser, self.session, self.target = browser, session, target

    def ask(self, method: str, **words: object) -> Any:
        return self.browser.ask(method, self.session, **words)

    def value(self, script: str) -> Any:
        """The value of an expression in the page."""
        told = self.ask("Runtime.evaluate", expression=script, returnByValue=True, awaitPromise=True)
        if "exceptionDetails" in told:
            raise Broken(f"{script}: {told['exceptionDetails']}")
        return told["result"].get("value")

    def wait(self, script: str, seconds: float = 20) -> Any:
        """Waits until an expression is true. Returns its value, {} for an element of the page."""
        end = time.monotonic() + seconds
        while True:
            value = self.value(script)
            if value or value == {} or time.monotonic() > end:
                return value
            time.sleep(0.05)

    def mouse(self, kind: str, x: float, y: float, button: str = "left", clicks: int = 1, keys: int = 0) -> None:
        buttons = 1 if button == "left" else 2
        self.ask(
            "Input.dispatchMouseEvent",
            type=kind,
            x=x,
            y=y,
            button=button,
            clickCount=clicks,
            buttons=buttons,
            modifiers=keys,
        )

    def click(self, x: float, y: float, button: str = "left", clicks: int = 1) -> None:
        """Clicks at a point of the screen."""
        self.ask("Input.dispatchMouseEvent", type="mouseMoved", x=x, y=y)
        for count in range(1, clicks + 1):
            self.mouse("mousePressed", x, y, button, count)
            self.mouse("mouseReleased", x, y, button, count)

    def drag(self, start: tuple[float, float], end: tuple[float, float], keys: int = 0) -> None:
        """Drags from one point of the screen to another, with keys held: 1 is Alt."""
        self.mouse("mousePressed", *start, keys=keys)
        for step in range(1, 9):
            x, y = (a + (b - a) * step / 8 for a, b in zip(start, end))
            self.mouse("mouseMoved", x, y, keys=keys)
        self.mouse("mouseReleased", *end, keys=keys)

    def press(self, text: str) -> None:
        """Clicks at the button, or the word, that has a text."""
        script = f"""(() => {{
            const all = [...document.querySelectorAll("button, summary")];
            const isFound = each => each.textContent === {json.dumps(text)} && each.offsetParent && !each.disabled;
            const found = all.find(isFound);
            found?.scrollIntoView({{block: "nearest"}});
            const box = found?.getBoundingClientRect();
            return box ? [box.x + box.width / 2, box.y + box.height / 2] : null;
        }})()"""
        place = self.wait(script)
        if not place:
            raise Broken(f"no button {text}")
        self.click(*place)

    def type(self, selector: str, text: str) -> None:
        """Types a text into a field in place of what it has."""
        self.value(
            f"(() => {{ const field = document.querySelector({json.dumps(selector)}); field.focus(); field.select?.();"
            " })()"
        )
        self.ask("Input.insertText", text=text)

    def key(self, key: str, code: int = 0, modifiers: int = 0) -> None:
        """Presses a key and lets it go, with others held: 1 is Alt."""
        code = code or KEYS.get(key) or ord(key.upper())
        text = "\r" if key == "Enter" else key if len(key) == 1 and not modifiers & ~SHIFT else ""
        name = "Space" if key == " " else key if len(key) > 1 else f"Key{key.upper()}" if key.isalpha() else ""
        for kind in ("keyDown" if text else "rawKeyDown", "keyUp"):
            more = {"text": text} if kind == "keyDown" else {}
            self.ask(
                "Input.dispatchKeyEvent",
                type=kind,
                key=key,
                code=name,
                windowsVirtualKeyCode=code,
                modifiers=modifiers,
                **more,
            )

    def text(self, selector: str) -> Optional[str]:
        """The text of an element, or None."""
        return self.value(f"document.querySelector({json.dumps(selector)})?.innerText ?? null")

    def picture(self, path: str) -> None:
        """Keeps what the screen shows as a PNG file."""
        with open(path, "wb") as file:
            file.write(base64.b64decode(self.ask("Page.captureScreenshot", format="png")["data"]))

    def faults(self) -> list[str]:
        """What the page and the browser complained of."""
        self.value("0")
        mine = [
            (event["method"], event["params"])
            for event in self.browser.events
            if event.get("sessionId") == self.session
        ]
        thrown = [
            words["exceptionDetails"].get("exception", {}).get("description", "")
            for name, words in mine
            if name == "Runtime.exceptionThrown"
        ]
        return thrown + [
            words["entry"]["text"]
            for name, words in mine
            if name == "Log.entryAdded" and words["entry"]["level"] == "error"
        ]
