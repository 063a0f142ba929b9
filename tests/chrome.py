"""Debian's Chromium without a screen, with one page, by its debugging protocol over two pipes."""
import base64
import json
import os
import shutil
import subprocess
import tempfile
import time
from pathlib import Path
from types import TracebackType
from typing import Any

WORDS = ["chromium", "--headless", "--no-sandbox", "--disable-gpu", "--hide-scrollbars", "--no-first-run", "--disable-extensions",
         "--remote-debugging-pipe", "--force-device-scale-factor=1"]
SECONDS = 120  # for an answer: the machine may be busy


class Browser:
    def __init__(self, url: str, width: int = 1000, height: int = 800, dark: bool = False) -> None:
        self.room, self.number = Path(tempfile.mkdtemp()), 0
        theirs_in, self.to = os.pipe()
        self.back, theirs_out = os.pipe()
        # The protocol's pipes are descriptors 3 and 4.
        command = 'exec 3<&"$1" 4>&"$2"; shift 2; exec "$@"'
        self.process = subprocess.Popen(["bash", "-c", command, "bash", str(theirs_in), str(theirs_out), *WORDS,
                                         f"--user-data-dir={self.room}", "about:blank"], pass_fds=(theirs_in, theirs_out),
                                        stdout=subprocess.DEVNULL, stderr=subprocess.DEVNULL)
        os.close(theirs_in)
        os.close(theirs_out)
        self.kept, self.session = b"", ""
        self.requests: list[str] = []
        self.said: list[str] = []
        page = self.wait(lambda: [one for one in self.call("Target.getTargets")["targetInfos"] if one["type"] == "page"])[0]
        self.session = self.call("Target.attachToTarget", targetId=page["targetId"], flatten=True)["sessionId"]
        for domain in ("Page", "Runtime", "Network", "Log"):
            self.call(f"{domain}.enable")
        self.resize(width, height)
        if dark:
            self.call("Emulation.setEmulatedMedia", features=[{"name": "prefers-color-scheme", "value": "dark"}])
        self.call("Page.navigate", url=url)
        self.wait(lambda: self.value("document.readyState") == "complete")

    def __enter__(self) -> "Browser":
        return self

    def __exit__(self, kind: type[BaseException] | None, error: BaseException | None, trace: TracebackType | None) -> None:
        self.process.terminate()
        try:
            self.process.wait(10)
        except subprocess.TimeoutExpired:
            self.process.kill()
            self.process.wait()
        os.close(self.to)
        os.close(self.back)
        shutil.rmtree(self.room, ignore_errors=True)

    def message(self) -> dict[str, Any]:
        while b"\0" not in self.kept:
            part = os.read(self.back, 1 << 20)
            if not part:
                raise ConnectionError("chromium ended")
            self.kept += part
        text, self.kept = self.kept.split(b"\0", 1)
        found: dict[str, Any] = json.loads(text)
        return found

    def call(self, method: str, **parameters: Any) -> dict[str, Any]:
        """What the browser answers. What it tells meanwhile is kept: addresses that were asked for, and what a page complains of."""
        self.number += 1
        asked = {"id": self.number, "method": method, "params": parameters, **({"sessionId": self.session} if self.session else {})}
        os.write(self.to, json.dumps(asked).encode() + b"\0")
        while True:
            came = self.message()
            if came.get("id") == self.number:
                if "error" in came:
                    raise ValueError(f"{method}: {came['error']['message']}")
                result: dict[str, Any] = came["result"]
                return result
            if came.get("method") == "Network.requestWillBeSent":
                self.requests.append(came["params"]["request"]["url"])
            elif came.get("method") == "Runtime.exceptionThrown":
                details = came["params"]["exceptionDetails"]
                self.said.append(details.get("exception", {}).get("description", details["text"]))
            elif came.get("method") == "Log.entryAdded":
                self.said.append(came["params"]["entry"]["text"])

    def value(self, expression: str) -> Any:
        result = self.call("Runtime.evaluate", expression=expression, awaitPromise=True, returnByValue=True)
        if "exceptionDetails" in result:
            raise ValueError(f"{expression}: {result['exceptionDetails'].get('exception', {}).get('description')}")
        return result["result"].get("value")

    def wait(self, test: Any, seconds: float = SECONDS) -> Any:
        """What the test finds, once it finds anything."""
        end = time.monotonic() + seconds
        while not (found := test()):
            if time.monotonic() > end:
                raise TimeoutError("the page never came to it")
            time.sleep(0.05)
        return found

    def until(self, expression: str, seconds: float = SECONDS) -> Any:
        return self.wait(lambda: self.value(expression), seconds)

    def resize(self, width: int, height: int) -> None:
        self.call("Emulation.setDeviceMetricsOverride", width=width, height=height, deviceScaleFactor=1, mobile=width < 500)

    def key(self, key: str, text: str = "") -> None:
        code = {"Tab": 9, "Enter": 13, " ": 32, "ArrowRight": 39, "ArrowLeft": 37}.get(key, ord(key[0].upper()))
        given = text or ({"Enter": "\r", " ": " "}.get(key) or (key if len(key) == 1 else ""))
        for kind in ("keyDown", "keyUp"):
            self.call("Input.dispatchKeyEvent", type=kind, key=key, code=key, windowsVirtualKeyCode=code,
                      **({"text": given} if given and kind == "keyDown" else {}))

    def picture(self, to: Path, whole: bool = False) -> None:
        """A picture of what is seen, or of the page from top to bottom."""
        shot = self.call("Page.captureScreenshot", captureBeyondViewport=whole, **({"clip": self.whole()} if whole else {}))
        to.write_bytes(base64.b64decode(shot["data"]))

    def whole(self) -> dict[str, float]:
        size = self.call("Page.getLayoutMetrics")["cssContentSize"]
        return {"x": 0, "y": 0, "width": size["width"], "height": size["height"], "scale": 1}
