#!/usr/bin/env python3
"""browser.py PAGE.html [OUT.png] [--look N] [--width W] [--height H] [--gray] [--dark] [--print OUT.pdf] [--keys]

Opens a page in headless Chromium and makes a picture of it, with record N looked at. --keys tries the keyboard and the pointer with real
events and says what does not do as docs/TIMELINE.md says. Chromium is spoken to over a pipe (DevTools protocol). Outside the gate.
"""
import argparse
import base64
import fcntl
import json
import os
import pathlib
import shutil
import subprocess
import sys
import tempfile

KEYS = {"Tab": 9, "ArrowRight": 39, "ArrowLeft": 37, "Home": 36, "End": 35, "PageDown": 34, "PageUp": 33}


class Browser:
    """Chromium, one page, over a pipe."""

    def __init__(self, width, height):
        program = shutil.which("chromium") or shutil.which("chromium-browser") or sys.exit("browser: there is no chromium")
        reads, self.into = os.pipe()
        self.out, writes = os.pipe()
        there = [fcntl.fcntl(end, fcntl.F_DUPFD, 20) for end in (reads, writes)]
        self.room = tempfile.TemporaryDirectory(ignore_cleanup_errors=True)
        command = (f'exec {program} --headless --no-sandbox --disable-gpu --hide-scrollbars --force-color-profile=srgb --remote-debugging-pipe '
                   f'--user-data-dir={self.room.name} --window-size={width},{height} about:blank 3<&{there[0]} 4>&{there[1]}')
        self.process = subprocess.Popen(["bash", "-c", command], pass_fds=there, stderr=subprocess.DEVNULL, stdout=subprocess.DEVNULL)
        self.last, self.rest, self.session = 0, b"", None
        target = self.send("Target.createTarget", url="about:blank")["targetId"]
        self.session = self.send("Target.attachToTarget", targetId=target, flatten=True)["sessionId"]
        self.send("Emulation.setDeviceMetricsOverride", width=width, height=height, deviceScaleFactor=1, mobile=False)

    def message(self):
        while b"\0" not in self.rest:
            self.rest += os.read(self.out, 1 << 16) or sys.exit("browser: chromium has ended")
        text, _, self.rest = self.rest.partition(b"\0")
        return json.loads(text)

    def send(self, method, **parameters):
        """One command, and its result."""
        self.last += 1
        said = {"id": self.last, "method": method, "params": parameters}
        if self.session:
            said["sessionId"] = self.session
        os.write(self.into, json.dumps(said).encode() + b"\0")
        while True:
            got = self.message()
            if got.get("id") == self.last:
                return got["result"] if "result" in got else sys.exit(f"browser: {method}: {got['error']}")

    def open(self, page):
        self.send("Page.enable")
        self.send("Page.navigate", url=pathlib.Path(page).resolve().as_uri())
        while self.message().get("method") != "Page.loadEventFired":
            pass

    def value(self, script):
        return self.send("Runtime.evaluate", expression=script, returnByValue=True)["result"].get("value")

    def press(self, key):
        for kind in ("rawKeyDown", "keyUp"):
            self.send("Input.dispatchKeyEvent", type=kind, key=key, code=key, windowsVirtualKeyCode=KEYS[key])

    def close(self):
        self.send("Browser.close")
        self.process.wait(timeout=20)


def try_keys(browser):
    """Real keys and a real pointer; what does not do as it should."""
    faults = []

    def expect(what, script, wanted):
        got = browser.value(script)
        if got != wanted:
            faults.append(f"{what}: {got!r}, {wanted!r} is wanted")

    ids = browser.value("[...document.querySelectorAll('.screen .col')].map(c => c.id)")
    focus, panel = "document.activeElement.id", "document.querySelector('#panel b').textContent"
    for _ in range(40):
        browser.press("Tab")
        if browser.value("document.activeElement.classList.contains('col')"):
            break
    expect("Tab goes to the first record", focus, ids[0])
    last = len(ids) - 1
    for key, to in [("ArrowRight", 1), ("ArrowRight", 2), ("ArrowLeft", 1), ("End", last), ("ArrowRight", last), ("PageUp", last - 10),
                    ("Home", 0), ("ArrowLeft", 0), ("PageDown", 10)]:
        browser.press(key)
        at = max(0, min(last, to))
        expect(f"{key} moves to {ids[at]}", focus, ids[at])
        expect(f"{key}: the panel tells it", panel, "Record " + browser.value(f"document.querySelector('#r{ids[at][1:]} th').textContent"))
        expect(f"{key}: one record is selected", "document.querySelectorAll('.col[aria-selected=true]').length", 1)
        expect(f"{key}: one record is in the tab order", "document.querySelectorAll('.col[tabindex=\"0\"]').length", 1)
        expect(f"{key}: it is in sight", f"(() => {{ const b = box.getBoundingClientRect(), r = document.getElementById('{ids[at]}').getBoundingClientRect();"
               " return r.right > b.left && r.left < b.right })()", True)
    browser.press("Home")
    near = ids[min(3, len(ids) - 1)]
    place = browser.value(f"(() => {{ box.scrollLeft = 0; const r = document.getElementById('{near}').getBoundingClientRect();"
                          " return [r.x + r.width / 2, Math.max(r.y, 0) + 40] })()")
    browser.send("Input.dispatchMouseEvent", type="mouseMoved", x=place[0], y=place[1])
    expect("the pointer shows a record", panel, "Record " + browser.value(f"document.querySelector('#r{near[1:]} th').textContent"))
    expect("nothing hangs out at the side", "document.documentElement.scrollWidth <= innerWidth", True)
    return faults


def main(arguments):
    parser = argparse.ArgumentParser(description=__doc__, formatter_class=argparse.RawDescriptionHelpFormatter)
    parser.add_argument("page")
    parser.add_argument("out", nargs="?")
    parser.add_argument("--look", type=int)
    parser.add_argument("--width", type=int, default=1400)
    parser.add_argument("--height", type=int, default=1000)
    for flag in ("gray", "dark", "keys", "whole"):
        parser.add_argument("--" + flag, action="store_true")
    parser.add_argument("--print", dest="pdf")
    given = parser.parse_args(arguments)
    browser = Browser(given.width, given.height)
    if given.dark:
        browser.send("Emulation.setEmulatedMedia", features=[{"name": "prefers-color-scheme", "value": "dark"}])
    if given.gray:
        browser.send("Emulation.setEmulatedVisionDeficiency", type="achromatopsia")
    browser.open(given.page)
    faults = try_keys(browser) if given.keys else []
    if given.look:
        browser.value(f"document.getElementById('c{given.look}').focus({{preventScroll: true}})")
    if given.out:
        picture = browser.send("Page.captureScreenshot", format="png", captureBeyondViewport=given.whole, **({"clip": whole(browser)} if given.whole else {}))
        pathlib.Path(given.out).write_bytes(base64.b64decode(picture["data"]))
    if given.pdf:
        pathlib.Path(given.pdf).write_bytes(base64.b64decode(browser.send("Page.printToPDF", preferCSSPageSize=True)["data"]))
    browser.close()
    print("\n".join(faults) if faults else "keys: as they should be" if given.keys else "")
    return bool(faults)


def whole(browser):
    width, height = browser.value("[document.documentElement.scrollWidth, document.documentElement.scrollHeight]")
    return {"x": 0, "y": 0, "width": width, "height": height, "scale": 1}


if __name__ == "__main__":
    sys.exit(main(sys.argv[1:]))
