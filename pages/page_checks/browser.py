"""A browser without a screen, and pictures of what it shows."""

import base64
import collections
import contextlib
import json
import struct
import subprocess
import time
import urllib.error
import urllib.request
import zlib

from . import common  # noqa: F401  which names the folder of the next
from serving import free_port

ELEMENT = "element-6066-11e4-a52e-4f735466cecf"  # the name of an element's key, by the WebDriver standard
TAB, ENTER, RIGHT, ESCAPE = "\ue004", "\ue007", "\ue014", "\ue00c"


def chunks(picture):
    """The parts of a PNG picture, by their names."""
    found, at = {}, 8
    while at < len(picture):
        length, name = struct.unpack_from(">I4s", picture, at)
        found[name] = found.get(name, b"") + picture[at + 8 : at + 8 + length]
        at += length + 12
    return found


def guess(filter_type, left, above, corner):
    """What a byte is told as the difference from (PNG, filter types 0 to 4)."""
    if filter_type < 4:
        return (0, left, above, (left + above) // 2)[filter_type]
    expected = left + above - corner
    return min((left, above, corner), key=lambda byte: abs(expected - byte))


def pixels(picture):
    """The width of a picture and its rows of colours."""
    parts = chunks(picture)
    width, height, _, kind = struct.unpack_from(">IIBB", parts[b"IHDR"])
    step = {2: 3, 6: 4}[kind]
    data, rows, above = zlib.decompress(parts[b"IDAT"]), [], bytes(width * step + step)
    for y in range(height):
        start = y * (width * step + 1)
        row = bytearray(step)
        for x, byte in enumerate(data[start + 1 : start + 1 + width * step]):
            row.append(byte + guess(data[start], row[x], above[x + step], above[x]) & 255)
        rows.append([bytes(row[x : x + 3]) for x in range(step, len(row), step)])
        above = row
    return width, rows


def small(picture):
    """The same picture in its 256 most frequent colours, which makes it a third of its size."""
    width, rows = pixels(picture)
    counts = collections.Counter(colour for row in rows for colour in row)
    palette = [colour for colour, _ in counts.most_common(256)]

    def distance(first, second):
        return sum((a - b) ** 2 for a, b in zip(first, second))

    nearest = {colour: min(range(len(palette)), key=lambda at: distance(colour, palette[at])) for colour in counts}
    data = zlib.compress(b"".join(b"\0" + bytes(nearest[colour] for colour in row) for row in rows), 9)
    head = struct.pack(">IIBBBBB", width, len(rows), 8, 3, 0, 0, 0)
    parts = ((b"IHDR", head), (b"PLTE", b"".join(palette)), (b"IDAT", data), (b"IEND", b""))
    return picture[:8] + b"".join(
        struct.pack(">I", len(body)) + name + body + struct.pack(">I", zlib.crc32(name + body)) for name, body in parts
    )


class Browser:
    """A browser without a screen, by the WebDriver protocol."""

    def __init__(self):
        self.port = free_port()
        self.driver = subprocess.Popen(
            ["chromedriver", f"--port={self.port}"], stdout=subprocess.DEVNULL, stderr=subprocess.DEVNULL
        )
        self.session = ""
        self.session = f"/session/{self.start()['sessionId']}"

    def start(self):
        words = ["--headless=new", "--no-sandbox", "--disable-gpu", "--hide-scrollbars", "--window-size=1200,900"]
        words.append("--host-resolver-rules=MAP *.test 127.0.0.1")
        options = {"args": words}
        wanted = {"browserName": "chrome", "goog:chromeOptions": options, "goog:loggingPrefs": {"browser": "ALL"}}
        for _ in range(100):
            with contextlib.suppress(urllib.error.URLError):
                return self.ask("POST", "/session", {"capabilities": {"alwaysMatch": wanted}})
            time.sleep(0.1)
        raise SystemExit("chromedriver does not start")

    def end(self):
        with contextlib.suppress(OSError):
            self.ask("DELETE", "")
        self.driver.terminate()
        self.driver.wait()

    def ask(self, method, path, body=None):
        data = json.dumps(body or {}).encode() if method == "POST" else None
        request = urllib.request.Request(f"http://127.0.0.1:{self.port}{self.session}{path}", data, method=method)
        request.add_header("Content-Type", "application/json")
        try:
            with urllib.request.urlopen(request, timeout=60) as reply:
                return json.load(reply)["value"]
        except urllib.error.HTTPError as error:
            raise RuntimeError(f"{path} {body}: {json.load(error)['value']['message']}") from error

    def run(self, script, *words):
        """What a script of the page answers."""
        return self.ask("POST", "/execute/sync", {"script": script, "args": list(words)})

    def go(self, address):
        self.ask("POST", "/url", {"url": address})

    def window(self, handle=None):
        """Goes to a window that is there, or to a new one. Answers its handle."""
        handle = handle or self.ask("POST", "/window/new", {"type": "window"})["handle"]
        self.ask("POST", "/window", {"handle": handle})
        return handle

    def close_others(self):
        """Closes all windows but this one."""
        here = self.ask("GET", "/window")
        for handle in self.ask("GET", "/window/handles"):
            if handle != here:
                self.window(handle)
                self.ask("DELETE", "/window")
        self.window(here)

    def anew(self):
        """Goes to a new window, whose page has kept no throttles, and closes all others, whose pages would join."""
        self.window()
        self.close_others()

    def text(self, path):
        return self.run("return document.querySelector(arguments[0])?.innerText ?? ''", path)

    def until(self, path, part, seconds=15):
        """Waits until a text has this part."""
        end = time.monotonic() + seconds
        while part not in (text := self.text(path)) and time.monotonic() < end:
            time.sleep(0.05)
        return text if part not in text else part

    def until_true(self, script, seconds=15):
        """Waits until a script of the page answers so."""
        end = time.monotonic() + seconds
        while not self.run(script) and time.monotonic() < end:
            time.sleep(0.05)

    def until_is(self, script, wanted, seconds=15):
        """Waits until a script of the page answers this. Answers what it answered last."""
        end = time.monotonic() + seconds
        while (found := self.run(script)) != wanted and time.monotonic() < end:
            time.sleep(0.05)
        return found

    def click(self, path):
        element = self.ask("POST", "/element", {"using": "css selector", "value": path})[ELEMENT]
        self.ask("POST", f"/element/{element}/click")

    def press(self, label):
        """Clicks the first button that has this text."""
        find = "const found = [...document.querySelectorAll('button')].find((one) => one.innerText === arguments[0]);"
        show = "found?.scrollIntoView({ block: 'center' }); return found;"  # not under the head
        self.ask("POST", f"/element/{self.run(find + show, label)[ELEMENT]}/click")

    def keys(self, text):
        """Presses keys, one after another, on what has the focus."""
        strokes = [{"type": kind, "value": key} for key in text for kind in ("keyDown", "keyUp")]
        self.ask("POST", "/actions", {"actions": [{"type": "key", "id": "keys", "actions": strokes}]})

    def hold(self, key, code, times):
        """Presses a key, and holds it until it has been repeated so often."""
        word = {"key": key, "code": code, **({"text": key} if len(key) == 1 else {})}
        for repeated in range(times + 1):
            self.develop("Input.dispatchKeyEvent", {"type": "keyDown", "autoRepeat": repeated > 0, **word})
        self.develop("Input.dispatchKeyEvent", {"type": "keyUp", "key": key, "code": code})

    def focused(self):
        return self.run("return document.activeElement.id || document.activeElement.tagName")

    def labels(self):
        """The names of the controls that are shown, as those hear them who do not see the page."""
        controls = "[...document.querySelectorAll('button, input, select, [tabindex]')]"
        found = self.run(f"return {controls}.filter((one) => one.checkVisibility())")
        return [self.ask("GET", f"/element/{one[ELEMENT]}/computedlabel") for one in found]

    def faults(self):
        """What it found wrong with the page, but for connections that could not be made while there was no server."""
        told = [entry["message"] for entry in self.ask("POST", "/se/log", {"type": "browser"})]
        return [message for message in told if "WebSocket" not in message]

    def size(self, width, height):
        metrics = {"width": width, "height": height, "deviceScaleFactor": 1, "mobile": False}
        self.develop("Emulation.setDeviceMetricsOverride", metrics)

    def develop(self, command, params):
        return self.ask("POST", "/goog/cdp/execute", {"cmd": command, "params": params})

    def picture(self, path, width):
        """Draws the whole page at this width."""
        self.size(width, 800)
        time.sleep(0.3)
        self.size(width, self.run("return document.documentElement.scrollHeight"))
        time.sleep(0.5)
        path.write_bytes(small(base64.b64decode(self.develop("Page.captureScreenshot", {"format": "png"})["data"])))
        self.develop("Emulation.clearDeviceMetricsOverride", {})


def take(browser, address):
    browser.click("#address")
    browser.keys(str(address) + ENTER)
