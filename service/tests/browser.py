"""A headless Chromium, driven by its debugging protocol over aiohttp."""
import asyncio
import base64
import os
import shutil
import signal
import subprocess
import tempfile

import aiohttp


class PageFault(Exception):
    """The page's script has failed, or the browser."""


def why_missing():
    return None if shutil.which("chromium") else "there is no chromium (Debian: chromium)"


class Browser:
    """One page. What its script throws, and what the page's policy forbids, is a fault of the next call."""

    def __init__(self, width=1500, height=860):
        self._folder, self._size, self._number, self._faults = tempfile.mkdtemp(prefix="sihtolem-chromium-"), (width, height), 0, []

    async def __aenter__(self):
        words = ["--headless=new", "--no-sandbox", "--disable-gpu", "--disable-dev-shm-usage", "--no-first-run", "--remote-debugging-port=0"]
        size = f"--window-size={self._size[0]},{self._size[1]}"
        words = ["chromium", *words, f"--user-data-dir={self._folder}", size, "about:blank"]
        # It has processes of its own, which end with its group.
        self._process = subprocess.Popen(words, stdout=subprocess.DEVNULL, stderr=subprocess.PIPE, text=True, start_new_session=True)
        port = next((line.split(":")[2].split("/")[0] for line in self._process.stderr if "DevTools listening on" in line), None)
        if port is None:
            raise PageFault("chromium doesn't start")
        self._session = aiohttp.ClientSession()
        async with self._session.get(f"http://127.0.0.1:{port}/json/list") as answer:
            pages = [page for page in await answer.json() if page["type"] == "page"]
        self._socket = await self._session.ws_connect(pages[0]["webSocketDebuggerUrl"], max_msg_size=0)
        for domain in ("Runtime", "Log", "Page"):
            await self._call(f"{domain}.enable")
        return self

    async def __aexit__(self, *_):
        await self._session.close()
        os.killpg(self._process.pid, signal.SIGKILL)
        self._process.wait()
        shutil.rmtree(self._folder, ignore_errors=True)

    async def open(self, address):
        await self._call("Page.navigate", url=address)

    async def value(self, expression):
        """What an expression of JavaScript comes to in the page."""
        told = await self._call("Runtime.evaluate", expression=expression, returnByValue=True, awaitPromise=True)
        if "exceptionDetails" in told or self._faults:
            raise PageFault(str(told.get("exceptionDetails") or self._faults))
        return told["result"].get("value")

    async def wait_for(self, expression, seconds=30):
        end = asyncio.get_running_loop().time() + seconds
        while not await self.value(expression):
            if asyncio.get_running_loop().time() > end:
                raise PageFault(f"{expression}: not within {seconds} s; the page has {await self.value('document.body.innerText')}")
            await asyncio.sleep(0.05)

    async def click(self, selector):
        """A click of the mouse in the midst of what the selector finds first."""
        box = await self.value(f"(it => ({{x: it.x + it.width / 2, y: it.y + it.height / 2}}))(document.querySelector({selector!r}).getBoundingClientRect())")
        for kind in ("mousePressed", "mouseReleased"):
            await self._call("Input.dispatchMouseEvent", type=kind, button="left", clickCount=1, **box)

    async def picture(self, path):
        told = await self._call("Page.captureScreenshot", format="png")
        with open(path, "wb") as file:
            file.write(base64.b64decode(told["data"]))

    async def _call(self, method, **words):
        self._number += 1
        await self._socket.send_json({"id": self._number, "method": method, "params": words})
        while True:
            told = await self._socket.receive_json(timeout=60)
            if told.get("id") == self._number:
                if "error" in told:
                    raise PageFault(f"{method}: {told['error']}")
                return told["result"]
            if told.get("method") == "Runtime.exceptionThrown" or told.get("params", {}).get("entry", {}).get("source") in ("security", "javascript"):
                self._faults.append(told["params"])
