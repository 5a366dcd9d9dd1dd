"""Pictures of pages by a headless browser, which is asked over two pipes (Chrome's DevTools protocol).

    browser.py PAGE=WIDTHxHEIGHT=FILE..      PAGE is a file or an http address; HEIGHT 0 is all of it

It needs Python 3 and `chromium` (Debian's package). A narrow page is shown as a telephone shows it.
"""
import base64
import json
import os
import subprocess
import sys
import tempfile
import time

SECONDS = 3.0
NARROW = 500


class Browser:
    """A browser with one page."""

    def __init__(self) -> None:
        self.folder = tempfile.TemporaryDirectory()
        to_browser, self.to_browser = os.pipe()
        self.from_browser, from_browser = os.pipe()
        # The browser reads of descriptor 3 and writes to 4.
        ends = f"exec 3<&{to_browser} 4>&{from_browser}; exec \"$@\""
        self.process = subprocess.Popen(
            ["sh", "-c", ends, "sh", "chromium", "--headless", "--no-sandbox", "--disable-gpu",
             "--hide-scrollbars", f"--user-data-dir={self.folder.name}", "--remote-debugging-pipe"],
            pass_fds=(to_browser, from_browser), stdout=subprocess.DEVNULL, stderr=subprocess.DEVNULL,
        )
        os.close(to_browser)
        os.close(from_browser)
        self.held, self.asked, self.session = b"", 0, None
        target = self.ask("Target.createTarget", url="about:blank")["targetId"]
        self.session = self.ask("Target.attachToTarget", targetId=target, flatten=True)["sessionId"]
        self.ask("Page.enable")

    def ask(self, method: str, **params: object) -> dict:
        """Makes a request, and passes over all up to its answer."""
        self.asked += 1
        said = {"id": self.asked, "method": method, "params": params}
        if self.session is not None:
            said["sessionId"] = self.session
        os.write(self.to_browser, json.dumps(said).encode() + b"\0")
        told: dict = {}
        while told.get("id") != self.asked:
            told = json.loads(self._message())
        if "error" in told:
            raise RuntimeError(f"{method}: {told['error']['message']}")
        return told["result"]

    def picture(self, url: str, width: int, height: int, path: str) -> None:
        """A page of this width, of this height or whole, in a file."""
        whole = height == 0
        self.ask("Emulation.setDeviceMetricsOverride", width=width, height=height or 800,
                 deviceScaleFactor=1, mobile=width < NARROW)
        self.ask("Page.navigate", url=url)
        time.sleep(SECONDS)
        shot = self.ask("Page.captureScreenshot", format="png", captureBeyondViewport=whole)
        with open(path, "wb") as file:
            file.write(base64.b64decode(shot["data"]))

    def close(self) -> None:
        self.process.terminate()
        self.process.wait()
        self.folder.cleanup()

    def _message(self) -> bytes:
        while b"\0" not in self.held:
            piece = os.read(self.from_browser, 1 << 16)
            if not piece:
                raise RuntimeError("the browser has ended")
            self.held += piece
        message, self.held = self.held.split(b"\0", 1)
        return message


def main() -> int:
    browser = Browser()
    for words in sys.argv[1:]:
        page, size, path = words.rsplit("=", 2)
        width, height = map(int, size.split("x"))
        url = page if page.startswith("http") else f"file://{os.path.abspath(page)}"
        browser.picture(url, width, height, path)
    browser.close()
    return 0


if __name__ == "__main__":
    sys.exit(main())
