"""The page of `tono page` in a real browser, chromium without a window: the sums, the sound's length by decodeAudioData, keys,
names for screen readers, no console error, no request but the page itself. Talks to the browser by its debugging pipe.

usage: lab_browser.py PAGE.html FRAMES RATE CHANNELS [SCREENSHOT.png]

The last line is 'N passed, M failed'.
"""
import base64
import json
import os
import shutil
import subprocess
import sys
import tempfile
from typing import Any, Dict, List

from python_cases import expect, finish


class Browser:
    """A browser and one page of it."""

    def __init__(self, program: str, folder: str) -> None:
        out_read, self.write_to = os.pipe()
        self.read_from, in_write = os.pipe()
        wanted = (out_read, in_write)

        def place() -> None:
            kept = [os.dup(fd) for fd in wanted]
            os.dup2(kept[0], 3)
            os.dup2(kept[1], 4)

        self.process = subprocess.Popen(
            [program, "--headless=new", "--no-sandbox", "--disable-gpu", "--mute-audio", "--disable-dev-shm-usage", "--no-first-run",
             f"--user-data-dir={folder}", "--remote-debugging-pipe", "--window-size=1100,1500", "about:blank"],
            preexec_fn=place, close_fds=False, stdout=subprocess.DEVNULL, stderr=subprocess.DEVNULL)
        self.count, self.session, self.events, self.rest = 0, None, [], b""  # type: int, Any, List[Dict[str, Any]], bytes
        for fd in wanted:
            os.close(fd)

    def message(self) -> Dict[str, Any]:
        while b"\0" not in self.rest:
            got = os.read(self.read_from, 1 << 20)
            if not got:
                raise RuntimeError("the browser ended")
            self.rest += got
        one, self.rest = self.rest.split(b"\0", 1)
        return dict(json.loads(one))

    def ask(self, method: str, **parameters: Any) -> Dict[str, Any]:
        self.count += 1
        call: Dict[str, Any] = {"id": self.count, "method": method, "params": parameters}
        if self.session:
            call["sessionId"] = self.session
        os.write(self.write_to, json.dumps(call).encode() + b"\0")
        while True:
            message = self.message()
            if message.get("id") == self.count:
                if "error" in message:
                    raise RuntimeError(f"{method}: {message['error']}")
                return dict(message["result"])
            self.events.append(message)

    def open(self, url: str) -> None:
        target = self.ask("Target.createTarget", url="about:blank")["targetId"]
        self.session = self.ask("Target.attachToTarget", targetId=target, flatten=True)["sessionId"]
        for domain in ("Page", "Runtime", "Log", "Network", "Accessibility"):
            self.ask(f"{domain}.enable")
        self.ask("Page.navigate", url=url)
        while not any(event.get("method") == "Page.loadEventFired" for event in self.events):
            self.events.append(self.message())

    def value(self, script: str) -> Any:
        answer = self.ask("Runtime.evaluate", expression=script, awaitPromise=True, returnByValue=True)
        if "exceptionDetails" in answer:
            raise RuntimeError(str(answer["exceptionDetails"]))
        return answer["result"].get("value")

    def key(self, key: str) -> None:
        for kind in ("keyDown", "keyUp"):
            self.ask("Input.dispatchKeyEvent", type=kind, key=key, text=key if len(key) == 1 and kind == "keyDown" else "")

    def close(self) -> None:
        try:
            self.session = None
            self.ask("Browser.close")
        except (RuntimeError, OSError):
            pass
        self.process.wait(20)


def judge(browser: Browser, frames: int, rate: int, channels: int, screenshot: str) -> None:
    expect("not checked at first", browser.value("document.getElementById('verdict').textContent") == "Not checked yet.")
    browser.value("document.getElementById('check').click()")
    verdict = browser.value("document.getElementById('verdict').textContent")
    expect("the sums are the cited ones", str(verdict).startswith("Yes: "), str(verdict))
    own = browser.value("(async () => { const d = Uint8Array.from(atob(document.getElementById('wave-data').textContent), c => c.charCodeAt(0));"
                        "const h = await crypto.subtle.digest('SHA-256', d);"
                        "return [...new Uint8Array(h)].map(x => x.toString(16).padStart(2, '0')).join('') })()")
    expect("the page's SHA-256 is the browser's", isinstance(own, str) and own in str(verdict), f"{own} {verdict}")
    decoded = browser.value(
        "(async () => { const b = await (await fetch(document.getElementById('save').href).catch(() => null))?.arrayBuffer() || Uint8Array.from("
        "atob(document.getElementById('wave-data').textContent), c => c.charCodeAt(0)).buffer;"
        f"const a = await new OfflineAudioContext({channels}, 1, {rate}).decodeAudioData(b);"
        "return [a.length, a.sampleRate, a.numberOfChannels] })()")
    expect("the sound by decodeAudioData", decoded == [frames, rate, channels], str(decoded))
    seconds = browser.value("new Promise(done => { const a = document.getElementById('audio');"
                            "const say = () => done(a.duration); a.readyState ? say() : a.addEventListener('loadedmetadata', say) })")
    expect("the player's length", abs(float(seconds) - frames / rate) < 0.01, str(seconds))
    expect("the file to save", str(browser.value("document.getElementById('save').download")).endswith(".wav"))
    keys(browser, frames / rate)
    names(browser)
    pictures(browser)
    tampered(browser)
    if screenshot:
        browser.value("window.scrollTo(0, 0)")
        shot = browser.ask("Page.captureScreenshot", format="png", captureBeyondViewport=True)["data"]
        with open(screenshot, "wb") as file:
            file.write(base64.b64decode(shot))


def keys(browser: Browser, seconds: float) -> None:
    """Every control is reached by the keyboard; keys on a picture zoom and move."""
    view = "document.getElementById('view').textContent"
    whole = browser.value(view)
    browser.value("document.getElementById('wave').focus()")
    browser.key("+")
    half = browser.value(view)
    expect("plus zooms in", half != whole and half == f"{seconds / 4:.4f} s to {seconds * 3 / 4:.4f} s", str(half))
    browser.key("ArrowRight")
    expect("right goes later", browser.value(view) == f"{seconds / 2:.4f} s to {seconds:.4f} s", str(browser.value(view)))
    browser.key("Home")
    expect("home shows all", browser.value(view) == whole)
    reached = browser.value("[...document.querySelectorAll('button, a[href], canvas, select, audio')].filter(x => x.offsetParent !== null)"
                            ".every(x => x.tabIndex >= 0)")
    expect("every control is reached by Tab", reached is True)


def names(browser: Browser) -> None:
    """What a screen reader says of each control and picture."""
    nodes = browser.ask("Accessibility.getFullAXTree")["nodes"]
    said = [(node.get("role", {}).get("value"), node.get("name", {}).get("value", "")) for node in nodes if not node.get("ignored")]
    for role, start in (("button", "Is this the cited sound?"), ("button", "Zoom in"), ("link", "Save the WAVE file"), ("image", "Waveform"),
                        ("image", "Spectrogram"), ("heading", "The citation"), ("Audio", "The stimulus")):
        expect(f"{role} {start}", any((r or "").lower() in (role.lower(), "img" if role == "image" else role.lower()) and str(n).startswith(start)
                                      for r, n in said), str([x for x in said if x[0] == role][:5]))
    unnamed = [r for r, n in said if r in ("button", "link", "image", "combobox") and not n]
    expect("nothing without a name", unnamed == [], str(unnamed))
    expect("the page has a language and one main part", browser.value("document.documentElement.lang") == "en"
           and browser.value("document.querySelectorAll('main').length") == 1)


def pictures(browser: Browser) -> None:
    for name in ("wave", "spectrum"):
        colours = browser.value(f"new Set(new Uint32Array(document.getElementById('{name}').getContext('2d').getImageData(0, 0, 1000, 170).data.buffer)).size")
        expect(f"something is drawn in {name}", int(colours) > 2, str(colours))


def tampered(browser: Browser) -> None:
    """A page whose citation names another sound says so, and says yes again where it is put back."""
    for place, said in (("file-sha256=", "No: the WAVE file's SHA-256 is "), ("input-sha256=", "No: the input's SHA-256 is "), ("", "Yes: ")):
        browser.value("window.was = window.was || document.getElementById('citation').textContent; document.getElementById('citation').textContent ="
                      f"{json.dumps(place)} ? window.was.replace(new RegExp({json.dumps(place)} + '....'), {json.dumps(place)} + '0000') : window.was;"
                      "document.getElementById('check').click()")
        verdict = str(browser.value("document.getElementById('verdict').textContent"))
        expect(f"another {place or 'nothing'}", verdict.startswith(said), verdict)


def main(words: List[str]) -> None:
    page, frames, rate, channels = words[0], int(words[1]), int(words[2]), int(words[3])
    program = shutil.which("chromium") or shutil.which("chromium-browser") or ""
    folder = tempfile.mkdtemp()
    browser = Browser(program, folder)
    try:
        browser.open("file://" + os.path.abspath(page))
        judge(browser, frames, rate, channels, words[4] if len(words) > 4 else "")
        errors = [event for event in browser.events if event.get("method") in ("Runtime.exceptionThrown", "Log.entryAdded")
                  or event.get("method") == "Runtime.consoleAPICalled" and event["params"]["type"] in ("error", "warning")]
        errors = [event for event in errors if "blob:" not in json.dumps(event)]
        expect("no error in the console", errors == [], json.dumps(errors)[:300])
        asked = [event["params"]["request"]["url"] for event in browser.events if event.get("method") == "Network.requestWillBeSent"]
        outside = [url for url in asked if not url.startswith(("file://", "blob:", "data:"))]
        expect("nothing is fetched", outside == [] and sum(url.startswith("file://") for url in asked) == 1, str(asked)[:300])
    finally:
        browser.close()
        shutil.rmtree(folder, ignore_errors=True)
    finish()


main(sys.argv[1:])
