# SPDX-License-Identifier: Apache-2.0
"""A headless Chromium, led by DevTools over a pipe: no driver, no port."""
from __future__ import annotations

import asyncio
import itertools
import json
import os
import shutil
import signal
import tempfile

FLAGS = [
    "--headless",
    "--no-sandbox",
    "--disable-gpu",
    "--disable-dev-shm-usage",
    "--no-first-run",
    "--disable-background-networking",
    "--disable-component-update",
    "--disable-sync",
    "--disable-background-timer-throttling",
    "--disable-renderer-backgrounding",
    "--host-resolver-rules=MAP * ~NOTFOUND , EXCLUDE 127.0.0.1",
    "--disable-features=WebRtcHideLocalIpsWithMdns",
    "--remote-debugging-pipe",
]
INTERLEAVING = "--force-fieldtrials=WebRTC-DataChannelMessageInterleaving/Enabled/"


class PageError(Exception):
    """A script of the page threw, or the page is gone."""


class Page:
    def __init__(self, browser: Chromium, target: str, session: str):
        self._browser, self._target, self._session = browser, target, session

    async def run(self, code: str, timeout: float = 60):
        """Evaluates an expression, which may be a promise, and answers its value, as JSON has it."""
        asked = {"expression": code, "awaitPromise": True, "returnByValue": True}
        told = await asyncio.wait_for(self._browser.call("Runtime.evaluate", asked, self._session), timeout)
        if fault := told.get("exceptionDetails"):
            raise PageError(fault.get("exception", {}).get("description") or fault.get("text"))
        return told["result"].get("value")

    async def call(self, name: str, *arguments, timeout: float = 60):
        """Calls a function of the page."""
        return await self.run(f"{name}({', '.join(json.dumps(it) for it in arguments)})", timeout)

    async def close(self) -> None:
        await self._browser.call("Target.closeTarget", {"targetId": self._target})

    async def leave(self) -> None:
        """Goes to another page."""
        await self._browser.call("Page.navigate", {"url": "about:blank#away"}, self._session)
        await self._browser.call("Page.navigate", {"url": "data:text/html,away"}, self._session)


class Chromium:
    def __init__(self, program: str = "chromium", flags: tuple[str, ...] = ()):
        self._program, self._flags = program, flags
        self._numbers = itertools.count(1)
        self._asked: dict[int, asyncio.Future] = {}
        self._process = None

    async def __aenter__(self) -> Chromium:
        self._folder = tempfile.mkdtemp(prefix="chromium-")
        read_theirs, self._write = os.pipe()
        self._read, write_theirs = os.pipe()
        words = [self._program, *FLAGS, *self._flags, f"--user-data-dir={self._folder}", "about:blank"]
        given = f'exec "$@" 3<&{read_theirs} 4>&{write_theirs}'
        self._process = await asyncio.create_subprocess_exec(
            "sh", "-c", given, "sh", *words, pass_fds=(read_theirs, write_theirs),
            stdout=asyncio.subprocess.DEVNULL, stderr=asyncio.subprocess.DEVNULL, start_new_session=True,
        )  # fmt: skip
        os.close(read_theirs)
        os.close(write_theirs)
        reader = asyncio.StreamReader(limit=1 << 28)
        await asyncio.get_running_loop().connect_read_pipe(lambda: asyncio.StreamReaderProtocol(reader), os.fdopen(self._read, "rb", 0))
        self._listens = asyncio.ensure_future(self._listen(reader))
        try:
            self.version = (await asyncio.wait_for(self.call("Browser.getVersion"), 120))["product"].split("/")[1]
        except BaseException:
            self._end()
            raise
        return self

    async def __aexit__(self, *_) -> None:
        try:
            await asyncio.wait_for(self.call("Browser.close"), 5)
            await asyncio.wait_for(self._process.wait(), 10)
        except (asyncio.TimeoutError, PageError, OSError):
            pass
        self._end()

    def _end(self) -> None:
        """Whatever is left of it ends: its processes are a session of their own."""
        try:
            os.killpg(self._process.pid, signal.SIGKILL)
        except ProcessLookupError:
            pass
        self._listens.cancel()
        os.close(self._write)
        shutil.rmtree(self._folder, ignore_errors=True)

    async def _listen(self, reader: asyncio.StreamReader) -> None:
        try:
            while True:
                told = json.loads((await reader.readuntil(b"\0"))[:-1])
                waits = self._asked.pop(told.get("id"), None)
                if waits and not waits.done():
                    waits.set_result(told)
        except (asyncio.IncompleteReadError, OSError):
            for waits in self._asked.values():
                if not waits.done():
                    waits.set_exception(PageError("the browser is gone"))

    async def call(self, method: str, parameters: dict = {}, session: str | None = None) -> dict:
        number = next(self._numbers)
        asked = {"id": number, "method": method, "params": parameters} | ({"sessionId": session} if session else {})
        self._asked[number] = asyncio.get_running_loop().create_future()
        told = memoryview(json.dumps(asked).encode() + b"\0")
        while told:  # (a pipe takes 64 KiB at once, and the browser reads on)
            told = told[os.write(self._write, told) :]
        answer = await self._asked[number]
        if "error" in answer:
            raise PageError(answer["error"]["message"])
        return answer["result"]

    async def page(self, script: str, address: str = "about:blank") -> Page:
        """A new page that has run a script."""
        target = (await self.call("Target.createTarget", {"url": address}))["targetId"]
        session = (await self.call("Target.attachToTarget", {"targetId": target, "flatten": True}))["sessionId"]
        page = Page(self, target, session)
        await page.run(script + "\n;0")
        return page
