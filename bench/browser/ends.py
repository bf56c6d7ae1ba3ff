# SPDX-License-Identifier: Apache-2.0
"""This library's end, under aiortc, beside the page's; and the wire between them, which may lose packets."""
from __future__ import annotations

import asyncio
import random
import struct
import time
from collections import deque
from pathlib import Path

import aioice.ice
import aiortc

SCRIPT = (Path(__file__).parent / "page.js").read_text()


def pattern() -> bytes:
    """The bytes that page.js has too."""
    made, state = bytearray(1 << 20), 1
    for i in range(len(made)):
        state = (state * 1664525 + 1013904223) & 0xFFFFFFFF
        made[i] = state >> 24
    return bytes(made)


PATTERN = pattern()


def bytes_of(number: int, length: int) -> bytes:
    at = number * 977 % 65536
    return PATTERN[at : at + length]


def text_of(number: int, length: int) -> str:
    head = f"{number}:"[:length]
    rest = length - len(head)
    return head + "aé漢😀" * (rest // 10) + "x" * (rest % 10)


def content_of(text: bool, number: int, length: int):
    return text_of(number, length) if text else bytes_of(number, length)


def numbered(number: int, length: int) -> bytes:
    """A message whose number stands in its first four bytes."""
    return struct.pack("!I", number) + bytes_of(number, max(length, 4))[4:]


def number_in(data) -> int:
    if isinstance(data, str) or len(data) < 4:
        return -1
    number = struct.unpack("!I", data[:4])[0]
    return number if data == numbered(number, len(data)) else -1


class Wire:
    """Loses, delays and doubles packets of SCTP, each at the same rate, both ways; or is cut, for all that UDP carries."""

    cut = False

    def __init__(self, sctp):
        self.rate, self.lost, self.random = 0.0, 0, random.Random(1)
        dtls = sctp.transport
        send, take = dtls._send_data, sctp._handle_data
        dtls._send_data = lambda data: self._pass(send, data)
        sctp._handle_data = lambda data: self._pass(take, data)

    async def _pass(self, goes_on, data) -> None:
        if not self.rate:
            return await goes_on(data)
        drawn = self.random.random() / self.rate
        if drawn < 1:
            self.lost += 1
        elif drawn < 2:
            asyncio.get_running_loop().call_later(self.random.uniform(0.005, 0.06), lambda: asyncio.ensure_future(self._late(goes_on, data)))
        else:
            await goes_on(data)
            if drawn < 3:
                await goes_on(data)

    async def _late(self, goes_on, data) -> None:
        try:
            await goes_on(data)
        except ConnectionError:
            pass


def let_be_cut() -> None:
    """All of aioice goes by here, checks of consent too."""
    protocol = aioice.ice.StunProtocol
    send_data, send_stun, received = protocol.send_data, protocol.send_stun, protocol.datagram_received

    async def gives(self, data, address):
        if not Wire.cut:
            await send_data(self, data, address)

    protocol.send_data = gives
    protocol.send_stun = lambda self, message, address: None if Wire.cut else send_stun(self, message, address)
    protocol.datagram_received = lambda self, data, address: None if Wire.cut else received(self, data, address)


let_be_cut()


class Box:
    """A channel of this end, and what comes on it: 'echo', 'keep' (numbers), 'count' (bytes) or 'compare' (own echoes)."""

    def __init__(self, channel: aiortc.RTCDataChannel, mode: str):
        self.channel, self.mode = channel, mode
        self.came: list[int] = []
        self.waits: deque = deque()
        self.right = self.wrong = self.bytes = 0
        self.first = self.last = 0.0
        channel.on("message", self.received)

    def received(self, data) -> None:
        if self.mode == "echo":
            if self.channel.readyState == "open":
                self.channel.send(data)
        elif self.mode == "keep":
            self.came.append(number_in(data))
        elif self.mode == "count":
            self.bytes += len(data)
            self.last = time.monotonic()
            self.first = self.first or self.last
        elif self.waits and self.waits.popleft() == data:
            self.right += 1
        else:
            self.wrong += 1

    async def compare(self, messages: list[tuple[bool, int, int]], seconds: float = 60) -> tuple[int, int]:
        """Sends messages and waits for their echoes: how many came back right, and wrong."""
        self.mode, self.right, self.wrong = "compare", 0, 0
        for message in messages:
            content = content_of(*message)
            self.waits.append(content)
            await until(lambda: self.channel.bufferedAmount < 8 << 20, seconds)
            self.channel.send(content)
        await until(lambda: self.right + self.wrong >= len(messages), seconds)
        return self.right, self.wrong

    async def pour(self, size: int) -> None:
        """So many bytes by messages of 64 KiB, held back by bufferedamountlow."""
        channel, message, low = self.channel, bytes_of(0, 65536), asyncio.Event()
        channel.bufferedAmountLowThreshold = 1 << 20
        channel.on("bufferedamountlow", low.set)
        while size > 0:
            if channel.bufferedAmount >= 4 << 20:
                low.clear()
                await low.wait()
            channel.send(message)
            size -= len(message)


async def until(check, seconds: float = 30) -> bool:
    end = time.monotonic() + seconds
    while not check():
        if time.monotonic() > end:
            return False
        await asyncio.sleep(0.005)
    return True


class Pair:
    """A page and an end of this library that have connected. `offerer` is 'browser' or 'ours'."""

    def __init__(self, bench, offerer: str):
        self.bench, self.offerer = bench, offerer
        self.boxes: dict[str, Box] = {}
        self.closed: list[str] = []
        self.end = aiortc.RTCPeerConnection(aiortc.RTCConfiguration(iceServers=[]))
        self.end.on("datachannel", lambda channel: self.take(channel.label, channel, "echo"))

    def take(self, name: str, channel, mode: str) -> Box:
        box = self.boxes[name] = Box(channel, mode)
        channel.on("close", lambda: self.closed.append(name))
        return box

    def open(self, name: str, label: str | None = None, mode: str = "compare", **kind) -> Box:
        return self.take(name, self.end.createDataChannel(name if label is None else label, **kind), mode)

    async def begin(self, change=lambda sdp: sdp) -> Pair:
        """`change` may write what the page is told of us."""
        self.page = await self.bench.browser.page(SCRIPT)
        await self.page.call("begin")
        if self.offerer == "browser":
            await self.page.call("open", "first", "first", {}, "echo")
            await self.end.setRemoteDescription(aiortc.RTCSessionDescription(**await self.page.call("description", "offer", None)))
            await self.end.setLocalDescription(await self.end.createAnswer())
            await self.page.call("accept", self.described(change))
        else:
            self.open("first")
            await self.end.setLocalDescription(await self.end.createOffer())
            answer = await self.page.call("description", "answer", self.described(change))
            await self.end.setRemoteDescription(aiortc.RTCSessionDescription(**answer))
        if not await self.page.call("untilOpen", "first", 20):
            raise TimeoutError("the ends don't connect")
        await until(lambda: "first" in self.boxes and self.boxes["first"].channel.readyState == "open")
        self.wire = Wire(self.end.sctp)
        return self

    def described(self, change) -> dict:
        return {"type": self.end.localDescription.type, "sdp": change(self.end.localDescription.sdp)}

    async def __aenter__(self) -> Pair:
        return await self.begin()

    async def __aexit__(self, *_) -> None:
        Wire.cut = False
        await self.end.close()
        try:
            await self.page.close()
        except Exception:  # a page that has gone
            pass

    async def both(self, name: str, kind: dict, opener: str, seconds: float = 20) -> Box:
        """A channel that one of the ends opens, and the other one echoes; `kind` is in the words of browsers, which aiortc has too."""
        if opener == "browser":
            await self.page.call("open", name, name, kind, "compare")
            await until(lambda: name in self.boxes, seconds)
        else:
            self.open(name, **kind)
        if not await self.page.call("untilOpen", name, seconds) or not await until(lambda: self.boxes[name].channel.readyState == "open", seconds):
            raise TimeoutError(f"channel {name} doesn't open")
        return self.boxes[name]
