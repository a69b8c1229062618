"""A headless Chromium of Debian, driven over the DevTools protocol through two pipes: what `scripts/serve page` needs of it. Keys and clicks come as a
person's do."""
import base64
import contextlib
import fcntl
import json
import os
import struct
import subprocess
import threading
import time
import zlib

from lib.serving import STARTED, wait_until

# Generous, since other programs may have the processors.
SECONDS = 60
KEYS = {"Tab": 9, "Enter": 13, "Space": 32, "Escape": 27}
TEXTS = {"Enter": "\r", "Space": " "}


def until(holds, seconds=SECONDS):
    """Whether it holds within so many seconds. It is looked at three times a second: a page that is asked all the time does nothing else."""
    return wait_until(holds, seconds, 0.3)


def high(number):
    """The same file under a greater number, which leaves 3 and 4 to Chromium's pipes."""
    return fcntl.fcntl(number, fcntl.F_DUPFD_CLOEXEC, 10)


def chunk(kind, data):
    return struct.pack(">I", len(data)) + kind + data + struct.pack(">I", zlib.crc32(kind + data))


# Reads a PNG, and gives its width, its height, its 256 most frequent colours, and for each pixel the number of the one that is nearest.
PALETTE = """(async (text) => {
  const data = Uint8Array.from(atob(text), (it) => it.charCodeAt(0)), image = await createImageBitmap(new Blob([data], {type: "image/png"}));
  const canvas = new OffscreenCanvas(image.width, image.height).getContext("2d"), counts = new Map();
  canvas.drawImage(image, 0, 0);
  const pixels = new Uint32Array(canvas.getImageData(0, 0, image.width, image.height).data.buffer);
  for (const it of pixels) counts.set(it, (counts.get(it) ?? 0) + 1);
  const palette = [...counts].sort((a, b) => b[1] - a[1]).slice(0, 256).map(([it]) => it), places = new Map();
  const far = (a, b) => ((a & 255) - (b & 255)) ** 2 + ((a >> 8 & 255) - (b >> 8 & 255)) ** 2 + ((a >> 16 & 255) - (b >> 16 & 255)) ** 2;
  for (const it of counts.keys()) {
    let best = 0;
    for (let place = 1; place < palette.length; place++) if (far(palette[place], it) < far(palette[best], it)) best = place;
    places.set(it, String.fromCharCode(best));
  }
  let told = "";
  for (const it of pixels) told += places.get(it);
  return [image.width, image.height, palette.flatMap((it) => [it & 255, it >> 8 & 255, it >> 16 & 255]), btoa(told)];
})"""


def png_of(width, height, palette, places):
    """A PNG in these colours, which takes half of the bytes."""
    rows = b"".join(b"\0" + places[at : at + width] for at in range(0, width * height, width))
    head = struct.pack(">IIBBBBB", width, height, 8, 3, 0, 0, 0)
    parts = [chunk(b"IHDR", head), chunk(b"PLTE", bytes(palette)), chunk(b"IDAT", zlib.compress(rows, 9)), chunk(b"IEND", b"")]
    return b"\x89PNG\r\n\x1a\n" + b"".join(parts)


class Browser:
    """A Chromium with a profile of its own, which takes any certificate."""

    def __init__(self, folder):
        (theirs_in, ours_out), (ours_in, theirs_out) = os.pipe(), os.pipe()
        reads, writes = high(theirs_in), high(theirs_out)
        words = ["chromium", "--headless=new", "--remote-debugging-pipe", f"--user-data-dir={folder}/profile", "--ignore-certificate-errors",
                 "--no-first-run", "--disable-gpu", "--disable-lcd-text", "--disable-dev-shm-usage", "--disable-background-networking", "--hide-scrollbars",
                 *(["--no-sandbox"] if os.getuid() == 0 else [])]
        self.process = subprocess.Popen(words, stdin=subprocess.DEVNULL, stdout=subprocess.DEVNULL, stderr=subprocess.DEVNULL, close_fds=False,
                                        preexec_fn=lambda: (os.dup2(reads, 3), os.dup2(writes, 4)))
        STARTED.append(self.process)
        for it in (theirs_in, theirs_out, reads, writes):
            os.close(it)
        self.output, self.input = os.fdopen(ours_out, "wb", 0), os.fdopen(ours_in, "rb")
        self.number, self.answers, self.events, self.arrived = 0, {}, [], threading.Condition()
        threading.Thread(target=self.listen, daemon=True).start()

    def listen(self):
        """Keeps what comes, each message up to a zero byte."""
        rest = b""
        while part := self.input.read1(1 << 20):
            *messages, rest = (rest + part).split(b"\0")
            with self.arrived:
                for it in map(json.loads, messages):
                    if "id" in it:
                        self.answers[it["id"]] = it
                    else:
                        self.events.append(it)
                self.arrived.notify_all()

    def call(self, method, session=None, **words):
        with self.arrived:
            self.number += 1
            number = self.number
            message = {"id": number, "method": method, "params": words, **({"sessionId": session} if session else {})}
            self.output.write(json.dumps(message).encode() + b"\0")
            if not self.arrived.wait_for(lambda: number in self.answers, SECONDS):
                raise RuntimeError(f"chromium doesn't answer {method}")
            answer = self.answers.pop(number)
        if "error" in answer:
            raise RuntimeError(f"{method}: {answer['error']['message']}")
        return answer["result"]

    def page(self, address):
        target = self.call("Target.createTarget", url="about:blank")["targetId"]
        session = self.call("Target.attachToTarget", targetId=target, flatten=True)["sessionId"]
        page = Page(self, session)
        page.open(address)
        return page

    def end(self):
        with contextlib.suppress(RuntimeError, OSError):
            self.call("Browser.close")
        self.process.wait(SECONDS)


class Page:
    """A page of it."""

    def __init__(self, browser, session):
        self.browser, self.session = browser, session
        for domain in ("Page", "Runtime", "Network", "Log", "Accessibility"):
            self.call(f"{domain}.enable")

    def call(self, method, **words):
        return self.browser.call(method, self.session, **words)

    def open(self, address):
        self.call("Page.navigate", url=address)
        if not until(lambda: self.run("document.readyState") == "complete" and self.run("location.href") != "about:blank", SECONDS):
            raise RuntimeError(f"{address} isn't loaded")

    def events(self, method):
        with self.browser.arrived:
            return [it["params"] for it in self.browser.events if it["method"] == method and it.get("sessionId") == self.session]

    def run(self, script):
        """What an expression gives on the page."""
        answer = self.call("Runtime.evaluate", expression=script, returnByValue=True, awaitPromise=True)
        if "exceptionDetails" in answer:
            raise RuntimeError(f"{script}: {answer['exceptionDetails']['exception'].get('description')}")
        return answer["result"].get("value")

    def text(self, selector):
        return self.run(f"document.querySelector({json.dumps(selector)})?.textContent ?? null")

    def waits_for(self, selector, wanted, seconds=SECONDS):
        """The text of an element once it is, or has, what is wanted; else what it is after so many seconds."""
        until(lambda: wanted in (self.text(selector) or ""), seconds)
        return self.text(selector)

    def press(self, key, shift=False):
        words = {"key": " " if key == "Space" else key, "code": key, "windowsVirtualKeyCode": KEYS[key], "modifiers": 8 if shift else 0}
        text = {"text": TEXTS[key]} if key in TEXTS else {}
        self.call("Input.dispatchKeyEvent", type="keyDown" if text else "rawKeyDown", **words, **text)
        self.call("Input.dispatchKeyEvent", type="keyUp", **words)

    def focused(self):
        """What has the focus, by its form, its name, its id or its text."""
        return self.run("(() => { const it = document.activeElement; return it === document.body ? null :"
                        " [it.form?.getAttribute('id'), it.name || it.id || it.getAttribute('aria-label') || it.textContent].filter(Boolean).join(' ') })()")

    def tab_to(self, wanted, most=60):
        """Presses Tab until that has the focus."""
        for _ in range(most):
            if self.focused() == wanted:
                return
            self.press("Tab")
        raise RuntimeError(f"Tab doesn't come to {wanted}")

    def type(self, wanted, text):
        """Types into a field that Tab leads to, in the place of what it has."""
        self.tab_to(wanted)
        self.run("document.activeElement.select()")
        if text:
            self.call("Input.insertText", text=text)
        else:
            self.run("document.activeElement.value = ''")

    def click(self, selector):
        """Clicks into the middle of an element with the mouse."""
        place = self.run(f"(() => {{ const it = document.querySelector({json.dumps(selector)}); it.scrollIntoView({{block: 'center'}});"
                         " const at = it.getBoundingClientRect(); return [at.x + at.width / 2, at.y + at.height / 2] })()")
        for kind in ("mousePressed", "mouseReleased"):
            self.call("Input.dispatchMouseEvent", type=kind, x=place[0], y=place[1], button="left", clickCount=1)

    def shape(self, width, scheme, height=900):
        """Sets the width of the window, and light or dark."""
        self.call("Emulation.setDeviceMetricsOverride", width=width, height=height, deviceScaleFactor=1, mobile=False)
        self.call("Emulation.setEmulatedMedia", features=[{"name": "prefers-color-scheme", "value": scheme}])
        time.sleep(0.5)

    def picture(self, file):
        """Writes the whole page as PNG, and returns how many bytes that takes."""
        size = self.call("Page.getLayoutMetrics")["cssContentSize"]
        clip = {"x": 0, "y": 0, "width": size["width"], "height": size["height"], "scale": 1}
        taken = self.call("Page.captureScreenshot", format="png", clip=clip, captureBeyondViewport=True)["data"]
        width, height, palette, places = self.run(f"{PALETTE}({json.dumps(taken)})")
        data = png_of(width, height, palette, base64.b64decode(places))
        with open(file, "wb") as written:
            written.write(data)
        return len(data)

    def roles(self):
        """The accessible name of each element that has a role to act with."""
        wanted = {"textbox", "button", "checkbox", "spinbutton", "link", "img", "image", "log", "status"}
        nodes = self.call("Accessibility.getFullAXTree")["nodes"]
        return [(it["role"]["value"], it.get("name", {}).get("value", "")) for it in nodes if not it.get("ignored") and it["role"]["value"] in wanted]
