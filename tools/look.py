#!/usr/bin/env python3
"""look.py: makes the pages of `seccheck report` for some profiles, opens each in a headless Chromium at 1280 and 400
pixels, light and dark, and keeps the pictures below out/look/. A page that scrolls sideways, logs an error or asks for
anything beyond itself fails. One page is also printed to a PDF.

seccheck is crates/seccheck/out/seccheck, or that in the folder BIN. ENGINES=FOLDER adds the profiles of container
engines whose packages lie there, by tools/engine_profiles.py. Only Python's standard library is used: Chromium is
spoken to by its DevTools protocol over a pipe.
"""
import base64
import json
import os
import shutil
import subprocess
import sys
import tempfile
import time

ROOT = os.path.dirname(os.path.dirname(os.path.abspath(__file__)))
BIN = os.path.abspath(os.environ.get("BIN") or f"{ROOT}/crates/seccheck/out")
ENGINES = os.environ.get("ENGINES") or "/"
OUT = f"{ROOT}/out/look"
WIDTHS, SCHEMES, SECONDS = (1280, 400), ("light", "dark"), 60
ACTIONS = ("ALLOW", "LOG", "ERRNO", "TRACE", "TRAP", "KILL_THREAD", "KILL_PROCESS")
OPERATORS = ("NE", "LT", "LE", "EQ", "GE", "GT", "MASKED_EQ")


class Browser:
    """A Chromium that is spoken to over a pipe: messages are JSON texts, each with a zero byte after it."""

    def __init__(self, program, room):
        (to_it, ours), (theirs, from_it) = os.pipe(), os.pipe()
        # It reads from 3 and writes to 4.
        words = [program, "--headless", "--no-sandbox", "--disable-gpu", "--remote-debugging-pipe",
                 "--hide-scrollbars", f"--user-data-dir={room}", "about:blank"]
        shell = 'exec 3<&"$1" 4>&"$2"; shift 2; exec "$@"'
        self.process = subprocess.Popen(["bash", "-c", shell, "bash", str(to_it), str(from_it), *words],
                                        pass_fds=(to_it, from_it), stderr=subprocess.DEVNULL)
        os.close(to_it)
        os.close(from_it)
        self.into, self.out, self.number, self.rest, self.events = ours, theirs, 0, b"", []
        target = self.call("Target.createTarget", url="about:blank")["targetId"]
        self.session = None
        self.session = self.call("Target.attachToTarget", targetId=target, flatten=True)["sessionId"]
        for domain in ("Page", "Runtime", "Log", "Network"):
            self.call(f"{domain}.enable")

    def message(self):
        while b"\0" not in self.rest:
            more = os.read(self.out, 1 << 20)
            if not more:
                raise RuntimeError("Chromium has ended")
            self.rest += more
        text, _, self.rest = self.rest.partition(b"\0")
        return json.loads(text)

    def call(self, method, **params):
        self.number += 1
        asked = {"id": self.number, "method": method, "params": params}
        if getattr(self, "session", None):
            asked["sessionId"] = self.session
        os.write(self.into, json.dumps(asked).encode() + b"\0")
        while True:
            got = self.message()
            if got.get("id") == self.number:
                if "error" in got:
                    raise RuntimeError(f"{method}: {got['error']}")
                return got["result"]
            self.events.append(got)

    def wait(self, method):
        until = time.monotonic() + SECONDS
        while not any(it.get("method") == method for it in self.events):
            if time.monotonic() > until:
                raise RuntimeError(f"no {method}")
            self.events.append(self.message())

    def value(self, expression):
        return self.call("Runtime.evaluate", expression=expression, returnByValue=True)["result"].get("value")

    def end(self):
        self.process.terminate()
        self.process.wait()


def faults_of(events, url):
    """What a page logged, and what it asked for beside itself."""
    for event in events:
        params = event.get("params", {})
        if event.get("method") == "Log.entryAdded" and params["entry"]["level"] in ("error", "warning"):
            yield params["entry"]["text"]
        elif event.get("method") in ("Runtime.exceptionThrown", "Runtime.consoleAPICalled"):
            yield event["method"]
        elif event.get("method") == "Network.requestWillBeSent" and params["request"]["url"] != url:
            yield f"asks for {params['request']['url']}"


def look(browser, name, path, shots):
    """The faults of a page, at each width and in each scheme."""
    url = f"file://{path}"
    for width in WIDTHS:
        for scheme in SCHEMES:
            browser.events.clear()
            browser.call("Emulation.setDeviceMetricsOverride", width=width, height=900, deviceScaleFactor=1,
                         mobile=False)
            browser.call("Emulation.setEmulatedMedia", features=[{"name": "prefers-color-scheme", "value": scheme}])
            browser.call("Page.navigate", url=url)
            browser.wait("Page.loadEventFired")
            wide = browser.value("document.documentElement.scrollWidth")
            if wide > width:
                yield f"{name}: {width} {scheme}: scrolls sideways, {wide} pixels"
            browser.value("document.querySelectorAll('details').forEach(it => it.open = true)")
            wide = browser.value("document.documentElement.scrollWidth")
            if wide > width:
                yield f"{name}: {width} {scheme}: scrolls sideways with open cells, {wide} pixels"
            browser.value("document.querySelectorAll('details').forEach(it => it.open = false)")
            yield from (f"{name}: {width} {scheme}: {it}" for it in faults_of(browser.events, url))
            height = min(browser.value("document.documentElement.scrollHeight"), 12_000)
            shot = browser.call("Page.captureScreenshot", format="png", captureBeyondViewport=True,
                                clip={"x": 0, "y": 0, "width": width, "height": height, "scale": 1})
            with open(f"{shots}/{name}-{width}-{scheme}.png", "wb") as it:
                it.write(base64.b64decode(shot["data"]))


def picture(browser, path, into):
    """A part of a page as README shows it: cells, one of them open, differences and entries."""
    browser.events.clear()
    browser.call("Emulation.setDeviceMetricsOverride", width=1000, height=760, deviceScaleFactor=1, mobile=False)
    browser.call("Emulation.setEmulatedMedia", features=[{"name": "prefers-color-scheme", "value": "light"}])
    browser.call("Page.navigate", url=f"file://{path}")
    browser.wait("Page.loadEventFired")
    browser.value("document.querySelectorAll('details.d')[0].open = true")
    top = browser.value("document.querySelector('details[open]').getBoundingClientRect().top")
    clip = {"x": 0, "y": max(0, top - 136), "width": 1000, "height": 760, "scale": 1}
    shot = browser.call("Page.captureScreenshot", format="png", captureBeyondViewport=True, clip=clip)
    with open(f"{into}/report.png", "wb") as it:
        it.write(base64.b64decode(shot["data"]))


def print_page(browser, name, path, shots):
    browser.events.clear()
    browser.call("Emulation.clearDeviceMetricsOverride")
    browser.call("Emulation.setEmulatedMedia", media="print", features=[])
    browser.call("Page.navigate", url=f"file://{path}")
    browser.wait("Page.loadEventFired")
    printed = browser.call("Page.printToPDF", paperWidth=8.27, paperHeight=11.69, printBackground=False)
    with open(f"{shots}/{name}.pdf", "wb") as it:
        it.write(base64.b64decode(printed["data"]))
    browser.call("Emulation.setEmulatedMedia", media="", features=[])


def made_profiles(folder):
    """Profiles with every action and operator, with many entries, and with texts that look like markup."""
    def entry(names, action, args=(), errno=None):
        found = {"names": names, "action": f"SCMP_ACT_{action}"}
        return found | ({"args": list(args)} if args else {}) | ({"errnoRet": errno} if errno else {})

    def cond(index, op, value, two=0):
        return {"index": index, "op": f"SCMP_CMP_{op}", "value": value, "valueTwo": two}

    names = ["read", "write", "open", "close", "stat", "fstat", "lstat"]
    every = [entry([name], action, errno=13 if action == "ERRNO" else None) for name, action in zip(names, ACTIONS)]
    every += [entry(["ioctl", "fcntl"], "ERRNO", [cond(1, op, 4096 + at, 4096)], 1 + at)
              for at, op in enumerate(OPERATORS)]
    every.append(entry(["socket"], "ALLOW", [cond(at, "MASKED_EQ", 2**64 - 1, 2**63 + at) for at in range(6)]))
    yield "every", {"defaultAction": "SCMP_ACT_ERRNO", "defaultErrnoRet": 38, "syscalls": every}
    yield "empty", {"defaultAction": "SCMP_ACT_ALLOW"}
    many = [entry(["ioctl"], "ALLOW", [cond(1, "EQ", at)]) for at in range(1000)]
    yield "many", {"defaultAction": "SCMP_ACT_ERRNO", "syscalls": many}
    bad = ["<script>alert(1)</script>", "\" onmouseover=\"x", "'><b>", "\u0000\u001b[31m", "&lt;", "\u202eabc"]
    hostile = {"defaultAction": "SCMP_ACT_ERRNO", "<img src=x onerror=alert(1)>": 1,
               "syscalls": [entry(["read", *bad, *bad], "ALLOW") | {"\"'<>": 1} for _ in range(40)]}
    yield "hostile", hostile


def pages(folder):
    """The names of the pages and their files."""
    seccheck = f"{BIN}/seccheck"

    def page(name, *words):
        path = f"{folder}/{name}.html"
        with open(path, "wb") as it:
            subprocess.run([seccheck, "report", *words], stdout=it, cwd=folder, check=True)
        return name, path

    with open(f"{folder}/runtime_default.json", "wb") as it:
        subprocess.run([seccheck, "default"], stdout=it, check=True)
    with open(f"{folder}/runtime_default.json", encoding="utf-8") as it:
        profile = json.load(it)
    # As profiles of 2019 were: without the newest calls, and with io_uring.
    allowed = profile["syscalls"][-1]
    newer = ("close_range", "openat2", "faccessat2", "pidfd_open")
    allowed["names"] = [name for name in allowed["names"] if name not in newer]
    allowed["names"] += ["io_uring_setup", "io_uring_enter", "io_uring_register"]
    with open(f"{folder}/older.json", "w", encoding="utf-8") as it:
        json.dump(profile, it)
    with open(f"{folder}/records", "w", encoding="utf-8") as it:
        for pod, call, nr in (("default.web", "ptrace", 101), ("default.db", "mount", 165)):
            it.write(json.dumps({"uid": pod, "name": "main", "attempt": 0, "exit": 0, "profile": "runtime/default",
                                 "performed": 7, "denied": 3, "calls": [{"call": call, "nr": nr, "action": "ERRNO",
                                                                         "data": 1, "count": 3, "first": 4}]}) + "\n")
    yield page("runtime_default", "runtime_default.json")
    yield page("compared", "runtime_default.json", "--against", "older.json", "--records", "records")
    for name, profile in made_profiles(folder):
        with open(f"{folder}/{name}.json", "w", encoding="utf-8") as it:
            json.dump(profile, it)
        yield page(name, f"{name}.json")
    ran = subprocess.run([sys.executable, f"{ROOT}/tools/engine_profiles.py", f"{folder}/engines", ENGINES],
                         stdout=subprocess.PIPE, text=True, check=False)
    for path in ran.stdout.split():
        name = os.path.splitext(os.path.basename(path))[0]
        resolved = subprocess.run([seccheck, "resolve", path], capture_output=True, check=False)
        if resolved.returncode == 0:
            with open(f"{folder}/{name}.json", "wb") as it:
                it.write(resolved.stdout)
            yield page(name, f"{name}.json")


def main():
    program = shutil.which("chromium") or shutil.which("chromium-browser")
    if not program:
        print("look: Chromium is missing: Debian's package chromium")
        return 77
    shutil.rmtree(OUT, ignore_errors=True)
    os.makedirs(OUT)
    faults = []
    with tempfile.TemporaryDirectory() as room:
        browser = Browser(program, room)
        try:
            for name, path in pages(OUT):
                found = list(look(browser, name, path, OUT))
                faults += found
                print(f"{name}: {os.path.getsize(path)} bytes{'' if not found else ', FAILED'}", flush=True)
                if name == "compared":
                    print_page(browser, name, path, OUT)
                    picture(browser, path, OUT)
        finally:
            browser.end()
    for fault in faults:
        print(fault)
    return 1 if faults else 0


if __name__ == "__main__":
    sys.exit(main())
