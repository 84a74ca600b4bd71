"""Browsers without a window, for tests and for bench/pages: Chromium over its pipes, and Firefox by Marionette."""
from __future__ import annotations

import base64
import json
import os
import pathlib
import shutil
import socket
import subprocess
import time
from typing import Any, Dict, List, Optional, Tuple, Type, Union

SIZE = (1400, 1000)
PHONE = (390, 844)
START = 180  # seconds
ASK = 120  # seconds
KEYS = {
    "ArrowLeft": "\ue012",
    "ArrowRight": "\ue014",
    "End": "\ue010",
    "Enter": "\ue007",
    "Home": "\ue011",
}
# A Firefox that starts at once, and asks nothing of any network.
QUIET: Dict[str, Any] = {
    "marionette.port": 0,
    "browser.shell.checkDefaultBrowser": False,
    "app.normandy.enabled": False,
    "browser.newtabpage.activity-stream.feeds.system.topstories": False,
    "browser.safebrowsing.malware.enabled": False,
    "browser.safebrowsing.phishing.enabled": False,
    "datareporting.policy.dataSubmissionEnabled": False,
    "extensions.systemAddon.update.enabled": False,
    "network.captive-portal-service.enabled": False,
    "network.connectivity-service.enabled": False,
    "services.settings.server": "data:,#remote-settings-dummy/v1",
}
Path = Union[str, pathlib.Path]


class Browser:
    """What both can: open a file, ask for the value of an expression in its page, press keys, keep a picture of it."""

    name: str
    programs: Tuple[str, ...]

    def __init__(self, program: str, profile: Path) -> None:
        raise NotImplementedError

    def open(self, path: Path) -> None:
        """Opens a file; a fragment may follow its name."""
        raise NotImplementedError

    def ask(self, code: str) -> Any:
        """The value of an expression in the page; where it is a promise, what that comes to."""
        raise NotImplementedError

    def key(self, key: str) -> None:
        raise NotImplementedError

    def end(self) -> None:
        raise NotImplementedError


class Chromium(Browser):
    """Chromium, by the protocol of its developer tools (the streams 3 and 4)."""

    name = "Chromium"
    programs = ("chromium", "google-chrome")

    def __init__(self, program: str, profile: Path) -> None:
        down, up = os.pipe(), os.pipe()

        def streams() -> None:
            os.dup2(down[0], 3)
            os.dup2(up[1], 4)

        os.set_inheritable(down[0], True)
        os.set_inheritable(up[1], True)
        self.process = subprocess.Popen(
            [
                program,
                "--headless=new",
                "--no-sandbox",
                "--disable-gpu",
                "--remote-debugging-pipe",
                f"--user-data-dir={profile}",
                "--hide-scrollbars",
                "--force-device-scale-factor=1",
                "--window-size={},{}".format(*SIZE),
            ],
            preexec_fn=streams,
            close_fds=False,
            stdout=subprocess.DEVNULL,
            stderr=subprocess.DEVNULL,
        )
        os.close(down[0])
        os.close(up[1])
        self.to, self.back = os.fdopen(down[1], "wb", 0), os.fdopen(up[0], "rb", 0)
        self.number, self.rest, self.loaded = 0, b"", False
        self.session: Optional[str] = None
        self.console: List[str] = []  # errors and warnings of the page
        self.requests: List[str] = []  # what the page asked for

    def message(self) -> Dict[str, Any]:
        while b"\0" not in self.rest:
            more = os.read(self.back.fileno(), 1 << 20)
            if not more:
                raise RuntimeError("the browser ended")
            self.rest += more
        text, self.rest = self.rest.split(b"\0", 1)
        message: Dict[str, Any] = json.loads(text)
        return message

    def call(self, method: str, **words: Any) -> Dict[str, Any]:
        self.number += 1
        request: Dict[str, Any] = {"id": self.number, "method": method, "params": words}
        if self.session:
            request["sessionId"] = self.session
        self.to.write(json.dumps(request).encode() + b"\0")
        while True:
            answer = self.message()
            if answer.get("id") == self.number:
                if "error" in answer:
                    raise RuntimeError(f"{method}: {answer['error']['message']}")
                result: Dict[str, Any] = answer["result"]
                return result
            self.note(answer)

    def note(self, event: Dict[str, Any]) -> None:
        name, words = event.get("method"), event.get("params", {})
        if name == "Runtime.exceptionThrown":
            details = words["exceptionDetails"]
            self.console.append(details.get("exception", {}).get("description") or details["text"])
        elif name == "Log.entryAdded" and words["entry"]["level"] in ("error", "warning"):
            self.console.append(words["entry"]["text"])
        elif name == "Runtime.consoleAPICalled" and words["type"] in ("error", "warning", "assert"):
            self.console.append(str(words["args"]))
        elif name == "Network.requestWillBeSent":
            self.requests.append(words["request"]["url"])
        elif name == "Page.loadEventFired":
            self.loaded = True

    def open(self, path: Path) -> None:
        self.session = None
        target = self.call("Target.createTarget", url="about:blank")["targetId"]
        self.session = self.call("Target.attachToTarget", targetId=target, flatten=True)["sessionId"]
        self.console, self.requests, self.loaded = [], [], False
        for domain in ("Runtime", "Log", "Page", "Network"):
            self.call(f"{domain}.enable")
        self.call("Page.navigate", url="file://" + os.path.abspath(path))
        while not self.loaded:
            self.note(self.message())

    def ask(self, code: str) -> Any:
        result = self.call("Runtime.evaluate", expression=code, returnByValue=True, awaitPromise=True)
        if "exceptionDetails" in result:
            raise RuntimeError(f"{code}: {result['exceptionDetails']['exception']['description']}")
        return result["result"].get("value")

    def key(self, key: str) -> None:
        for kind in ("keyDown", "keyUp"):
            text = {"text": key} if len(key) == 1 and kind == "keyDown" else {}
            self.call("Input.dispatchKeyEvent", type=kind, key=key, **text)

    def become_phone(self) -> None:
        """Shows the page that is open as on a screen of `PHONE` points. (No window of Firefox is so narrow.)"""
        width, height = PHONE
        self.call("Emulation.setDeviceMetricsOverride", width=width, height=height, deviceScaleFactor=1, mobile=True)

    def keep(self, path: Path, **words: Any) -> None:
        """Keeps a picture of the page."""
        shot = self.call("Page.captureScreenshot", format="png", captureBeyondViewport=True, **words)
        with open(path, "wb") as file:
            file.write(base64.b64decode(shot["data"]))

    def end(self) -> None:
        self.session = None
        try:
            self.call("Browser.close")
        except (RuntimeError, OSError):
            pass
        self.process.wait(20)


class Firefox(Browser):
    """Firefox, by Marionette, its protocol for tests."""

    name = "Firefox"
    programs = ("firefox-esr", "firefox")

    def __init__(self, program: str, profile: Path) -> None:
        os.makedirs(profile)
        with open(os.path.join(profile, "user.js"), "w", encoding="ascii") as file:
            file.writelines(f'user_pref("{name}", {json.dumps(value)});\n' for name, value in QUIET.items())
        self.process = subprocess.Popen(
            [program, "--headless", "--marionette", "--no-remote", "--profile", str(profile)],
            stdout=subprocess.DEVNULL,
            stderr=subprocess.DEVNULL,
        )
        self.number, self.rest = 0, b""
        try:
            self.link = socket.create_connection(("127.0.0.1", self.port(profile)), timeout=START)
            self.message()
            self.call("WebDriver:NewSession")
            self.call("WebDriver:SetWindowRect", width=SIZE[0], height=SIZE[1])
            self.call("WebDriver:SetTimeouts", script=ASK * 1000)
        except BaseException:
            self.process.kill()
            raise

    def port(self, profile: Path) -> int:
        end = time.monotonic() + START
        while time.monotonic() < end and self.process.poll() is None:
            try:
                with open(os.path.join(profile, "MarionetteActivePort"), encoding="ascii") as file:
                    return int(file.read())
            except (OSError, ValueError):
                time.sleep(0.1)
        raise RuntimeError("Firefox does not start")

    def message(self) -> Any:
        while b":" not in self.rest:
            self.more()
        size, self.rest = self.rest.split(b":", 1)
        while len(self.rest) < int(size):
            self.more()
        text, self.rest = self.rest[: int(size)], self.rest[int(size) :]
        return json.loads(text)

    def more(self) -> None:
        data = self.link.recv(1 << 20)
        if not data:
            raise RuntimeError("the browser ended")
        self.rest += data

    def call(self, method: str, **words: Any) -> Any:
        self.number += 1
        text = json.dumps([0, self.number, method, words]).encode()
        self.link.sendall(b"%d:" % len(text) + text)
        _, _, error, result = self.message()
        if error:
            raise RuntimeError(f"{method}: {error['message']}")
        return result

    def open(self, path: Path) -> None:
        self.call("WebDriver:Navigate", url="about:blank")
        self.call("WebDriver:Navigate", url="file://" + os.path.abspath(path))

    def ask(self, code: str) -> Any:
        # (a script of the page itself, so that it sees what the page's scripts see)
        text = f"""
            (async () => ({code}))().then(value => [value], error => String(error))
                .then(answer => document.dispatchEvent(new CustomEvent("answer", {{detail: JSON.stringify(answer)}})));
        """
        script = """
            const done = arguments[1], one = document.createElement("script");
            document.addEventListener("answer", event => done(event.detail), {once: true});
            one.textContent = arguments[0];
            document.documentElement.append(one);
            one.remove();
        """
        answer = json.loads(self.call("WebDriver:ExecuteAsyncScript", script=script, args=[text])["value"])
        if isinstance(answer, str):
            raise RuntimeError(f"{code}: {answer}")
        return answer[0]

    def key(self, key: str) -> None:
        value = KEYS.get(key, key)
        steps = [{"type": kind, "value": value} for kind in ("keyDown", "keyUp")]
        self.call("WebDriver:PerformActions", actions=[{"type": "key", "id": "keys", "actions": steps}])

    def end(self) -> None:
        try:
            self.call("Marionette:Quit", flags=["eForceQuit"])
        except (RuntimeError, OSError):
            self.process.terminate()
        self.process.wait(30)


def found(kind: Type[Browser]) -> Optional[str]:
    """Where a browser of this kind is installed, or None."""
    return next(filter(None, map(shutil.which, kind.programs)), None)
