# SPDX-License-Identifier: Apache-2.0
"""What a browser and this library go through together. Each function takes the bench, which counts, and who offers."""
from __future__ import annotations

import asyncio
import itertools
import json
import random
import re
import sys
import time
from pathlib import Path

from ends import SCRIPT, Box, Pair, Wire, content_of, numbered, until

TOP = Path(__file__).resolve().parents[2]

LARGEST = 262144
SIZES = [0, 1, 2, 1000, 1191, 1200, 4096, 65535, 65536, 65537, LARGEST - 1, LARGEST]
LABELS = ["", "chat", "two words", "Zürich 漢字 😀", "l" * 65535]
RELIABILITY: dict[str, dict] = {
    "reliable": {},
    "0 retransmissions": {"maxRetransmits": 0},
    "3 retransmissions": {"maxRetransmits": 3},
    "50 ms": {"maxPacketLifeTime": 50},
    "500 ms": {"maxPacketLifeTime": 500},
}
KINDS = {
    f"{'ordered' if ordered else 'unordered'}, {name}": {"ordered": ordered, **kind}
    for ordered, (name, kind) in itertools.product((True, False), RELIABILITY.items())
}
OPENERS = ("browser", "ours")


async def opening(bench, offerer: str) -> None:
    """Channels by either end: what each says of itself stands at the other; and negotiated ones."""
    async with Pair(bench, offerer) as pair:
        for opener, (number, kind) in itertools.product(OPENERS, enumerate(KINDS.values())):
            label, protocol = LABELS[number % len(LABELS)], ["", "proto", "протокол"][number % 3]
            name = f"{opener} {number}"
            if opener == "browser":
                seen = len(pair.boxes)
                await pair.page.call("open", name, label, {**kind, "protocol": protocol})
                # (the harness knows by labels what the page opened)
                await until(lambda: label in pair.boxes or len(pair.boxes) > seen)
                box = pair.boxes.pop(label)
            else:
                box = pair.open(name, label, protocol=protocol, **kind)
            mine = box.channel
            opened = await until(lambda: mine.readyState == "open") and await pair.page.call("untilOpen", name if opener == "browser" else label, 20)
            theirs = await pair.page.call("describe", name if opener == "browser" else label)
            bench.check(opened and theirs["label"] == mine.label == label and theirs["protocol"] == mine.protocol == protocol, f"{name} texts")
            told = (theirs["ordered"], theirs["maxRetransmits"], theirs["maxPacketLifeTime"], theirs["id"])
            bench.check(told == (mine.ordered, mine.maxRetransmits, mine.maxPacketLifeTime, mine.id), f"{name} kind {told}")
            if opener == "ours":
                bench.check(await comes_back(box), f"{name} echoes")
            await pair.page.run(f"channels.delete({json.dumps(label)}); 0")
        for id in (100, 101, 1023, 40000, 65533, 65534):
            await pair.page.call("open", f"agreed {id}", "agreed", {"negotiated": True, "id": id}, "echo")
            box = pair.open(f"agreed {id}", "agreed", negotiated=True, id=id)
            bench.check(await pair.page.call("untilOpen", f"agreed {id}", 10), f"negotiated {id} is open")
            bench.check(await box.compare([(text, id, 500) for text in (True, False)]) == (2, 0), f"negotiated {id} echoes")


async def sizes(bench, offerer: str) -> None:
    """Messages of 0 bytes to 256 KiB, text and binary, go and come back byte for byte; what is too large is refused at both ends."""
    messages = [(text, number, size) for number, size in enumerate(SIZES) for text in (True, False)]
    async with Pair(bench, offerer) as pair:
        box = await pair.both("ours", {}, "ours")
        for message in messages:
            bench.check(await box.compare([message]) == (1, 0), f"ours sends {message}")
        box = await pair.both("theirs", {}, "browser")
        for message in messages:
            told = await pair.page.call("sendAndCompare", "theirs", [message], 30)
            bench.check(told == {"right": 1, "wrong": 0}, f"the browser sends {message}")
        for text in (True, False):
            told = await pair.page.call("sendPlain", "theirs", text, 1, LARGEST + 1)
            bench.check(told in ("TypeError", "OperationError"), f"the browser refuses: {told}")
            try:
                box.channel.send(content_of(text, 1, LARGEST + 1))
                bench.check(False, "ours refuses")
            except ValueError:
                bench.check(True, "ours refuses")
        bench.check((await pair.page.call("sendAndCompare", "theirs", [(True, 1, 10)], 30))["right"] == 1, "the channel goes on")
    if bench.ours:
        # the page is told of more than our end takes
        pair = await Pair(bench, offerer).begin(lambda sdp: sdp.replace(f"max-message-size:{LARGEST}", f"max-message-size:{LARGEST * 2}"))
        async with held(pair):
            box = await pair.both("theirs", {}, "browser")
            box.mode = "keep"
            told = await pair.page.call("sendPlain", "theirs", False, 1, LARGEST + 1)
            if told == "sent":
                await pair.page.call("sendNumbered", "theirs", 7, [100])
                bench.check(await until(lambda: box.came == [7]), f"a message that is too long doesn't come out: {box.came}")
            else:
                bench.check(told in ("TypeError", "OperationError"), f"the browser refuses by itself: {told}")


class held:
    """As `async with`, of a pair that has begun."""

    def __init__(self, pair: Pair):
        self.pair = pair

    async def __aenter__(self) -> Pair:
        return self.pair

    async def __aexit__(self, *fault) -> None:
        await self.pair.__aexit__(*fault)


async def many(bench, offerer: str) -> None:
    """50 channels, and 4,000 messages at once each way."""
    async with Pair(bench, offerer) as pair:
        names = [(f"{opener} {number}", opener) for number in range(25) for opener in OPENERS]
        boxes = await asyncio.gather(*[pair.both(name, {}, opener, 60) for name, opener in names])
        ids = {box.channel.id for box in boxes}
        bench.check(len(ids) == 50 and all((box.channel.id % 2 == names_id(pair, opener)) for box, (_, opener) in zip(boxes, names)), "ids")
        messages = [[(number % 2 == 0, 80 * place + number, number * 7 % 400) for number in range(80)] for place in range(50)]
        ours = [box for box, (_, opener) in zip(boxes, names) if opener == "ours"]
        theirs = [name for name, opener in names if opener == "browser"]
        echoes = await asyncio.gather(
            *[box.compare(messages[place] + messages[place + 25], 120) for place, box in enumerate(ours)],
            *[pair.page.call("sendAndCompare", name, messages[place] + messages[place + 25], 120, timeout=130) for place, name in enumerate(theirs)],
        )
        for told in echoes:
            right, wrong = (told["right"], told["wrong"]) if isinstance(told, dict) else told
            bench.check_many(right, 160 - right, f"{wrong} messages came back wrong")


def names_id(pair: Pair, opener: str) -> int:
    """The client of DTLS has even numbers."""
    ours = 0 if pair.end.sctp.transport._role == "client" else 1
    return ours if opener == "ours" else 1 - ours


async def kinds(bench, offerer: str) -> None:
    """Ten kinds of channels, while 0, 1 and 5 % of packets are lost, as many late and as many twice, both ways. Afterwards each works."""
    for rate in (0.0, 0.01, 0.05):
        async with Pair(bench, offerer) as pair:
            boxes = {name: await pair.both(name, kind, OPENERS[place % 2]) for place, (name, kind) in enumerate(KINDS.items())}
            for name, box in boxes.items():
                box.mode = "keep"
                await pair.page.call("setMode", name, "keep")
            pair.wire.rate = rate
            drawn, count = random.Random(int(1000 * rate)), 150
            for first in range(0, count, 10):
                for name, box in boxes.items():
                    lengths = [drawn.choice((4, 100, 1000, 3000, 20000)) for _ in range(10)]
                    await pair.page.call("sendNumbered", name, first, lengths)
                    for place, length in enumerate(lengths):
                        box.channel.send(numbered(first + place, length))
                await asyncio.sleep(0.1)
            await quiet(pair, boxes)
            pair.wire.rate = 0.0
            for name, box in boxes.items():
                await judge(bench, rate, name, "the browser's", box.came, count)
                await judge(bench, rate, name, "ours", await pair.page.call("cameOn", name), count)
            if not await bench.goes_on(pair, boxes, f"{rate:.0%} lost"):
                continue
            for name, box in boxes.items():
                await pair.page.call("setMode", name, "echo")
                bench.check(await comes_back(box), f"{rate:.0%} lost: {name}: our message comes back afterwards")
                await pair.page.call("setMode", name, "keep")
                box.mode = "echo"
                bench.check(await pair.page.call("comesBack", name), f"{rate:.0%} lost: {name}: the browser's message comes back afterwards")


async def comes_back(box: Box) -> bool:
    """Whether a message comes back by a channel that may lose it, where this machine is slow: one of five."""
    box.mode, box.came = "keep", []
    for number in range(5):
        box.channel.send(numbered(1000 + number, 1000))
        if await until(lambda: any(it >= 1000 for it in box.came), 4):
            return True
    return False


async def quiet(pair: Pair, boxes: dict[str, Box], seconds: float = 60) -> None:
    """Waits until nothing is buffered, and nothing has come for a second and a half."""
    end = time.monotonic() + seconds
    before, since = None, time.monotonic()
    while time.monotonic() < end:
        waiting = sum([(await pair.page.call("describe", name))["buffered"] + box.channel.bufferedAmount for name, box in boxes.items()])
        now = [len(box.came) for box in boxes.values()] + [await pair.page.run(f"channels.get({name!r}).came.length") for name in boxes]
        if now != before or waiting:
            before, since = now, time.monotonic()
        elif time.monotonic() - since > 1.5:
            return
        await asyncio.sleep(0.2)


async def judge(bench, rate: float, name: str, whose: str, came: list[int], count: int) -> None:
    what = f"{rate:.0%} lost: {name}: {whose}"
    bench.check(-1 not in came, f"{what}: bytes are right")
    bench.check(len(set(came)) == len(came), f"{what}: none twice")
    if name.startswith("ordered"):
        bench.check(came == sorted(came), f"{what}: in order")
    if name.endswith("reliable"):
        bench.check(len(came) == count, f"{what}: whole, {len(came)} of {count}")
    else:
        bench.note(what, len(came) / count)


async def closing(bench, offerer: str) -> None:
    """Channels are closed by either end and by both, empty or with messages queued; the browser's ids are used again, ours not at once."""
    async with Pair(bench, offerer) as pair:
        for opener, closer, queued in itertools.product(OPENERS, ("browser", "ours", "both"), (0, 40)):
            name = f"{opener} opens, {closer} closes, {queued} queued"
            box = await pair.both(name, {}, opener)
            number, box.mode = box.channel.id, "keep"
            await pair.page.call("setMode", name, "keep")
            for place in range(queued):
                if closer != "browser":
                    box.channel.send(numbered(place, 5000))
            lengths = "Array(%d).fill(5000)" % (queued if closer != "ours" else 0)
            if closer != "ours":
                await pair.page.run(f"sendNumbered({name!r}, 0, {lengths}); close({name!r})")
            if closer != "browser":
                box.channel.close()
            both_closed = await until(lambda: box.channel.readyState == "closed", 20) and await pair.page.call("untilClosed", name, 20)
            bench.check(both_closed, f"{name}: both are closed")
            theirs = await pair.page.call("cameOn", name)
            if closer == "browser":
                bench.check(box.came == list(range(queued)), f"{name}: the browser's messages came, {len(box.came)}")
            if closer == "ours":
                bench.check(theirs == list(range(queued)), f"{name}: our messages came, {len(theirs)}")
            again = await pair.both(f"{name} again", {}, opener)
            if opener == "browser":
                bench.check(again.channel.id == number, f"{name}: the id {number} is used again, {again.channel.id}")
            elif bench.ours:
                bench.check(again.channel.id != number, f"{name}: the id {number} is taken last, {again.channel.id}")
            if opener == "ours":
                bench.check(await again.compare([(True, 1, 10)]) == (1, 0), f"{name}: the next channel works")
            else:
                told = await pair.page.call("sendAndCompare", f"{name} again", [(True, 1, 10)], 20)
                bench.check(told["right"] == 1, f"{name}: the next channel works")
            await pair.page.call("close", f"{name} again")
            await until(lambda: again.channel.readyState == "closed", 10)


async def leaving(bench, offerer: str) -> None:
    """A page closes its connection, goes elsewhere or is closed; our end aborts, or shuts down."""
    for how in ("closes its connection", "goes elsewhere", "is closed"):
        async with Pair(bench, offerer) as pair:
            box = await pair.both("x", {}, "ours")
            if how == "closes its connection":
                await pair.page.call("closePeer")
            elif how == "goes elsewhere":
                await pair.page.leave()
            else:
                await pair.page.close()
            seconds = time.monotonic()
            bench.check(await until(lambda: box.channel.readyState == "closed", 60), f"the page {how}: our channels close")
            bench.note(f"the page {how}: seconds until our channels close", time.monotonic() - seconds)
    async with Pair(bench, offerer) as pair:
        await pair.both("x", {}, "ours")
        await pair.both("y", {}, "browser")
        await pair.end.sctp.stop()
        bench.check(all([await pair.page.call("untilClosed", name, 20) for name in ("first", "x", "y")]), "our end aborts: the page's channels close")
        told = (await pair.page.call("tell"))["errors"]
        bench.note(f"our end aborts: what the page is told: {sorted(set(it.split(': ', 1)[1] for it in told))}", len(told))
    if bench.ours:
        async with Pair(bench, offerer) as pair:
            box = await pair.both("x", {}, "ours")
            await pair.end.sctp.shutdown()
            bench.check(await until(lambda: pair.end.sctp.state == "closed", 20), "our end shuts down: the association ends")
            bench.check(box.channel.readyState == "closed", "our end shuts down: our channels close")
            bench.note("our end shuts down: the page's channels close", float(await pair.page.call("untilClosed", "x", 5)))


async def outages(bench, offerer: str) -> None:
    """The wire is cut for three seconds, with messages under way; and for good."""
    async with Pair(bench, offerer) as pair:
        ours = await pair.both("x", {}, "ours")
        await pair.both("y", {}, "browser")
        going = asyncio.gather(
            ours.compare([(number % 2 == 0, number, 2000) for number in range(200)], 90),
            pair.page.call("sendAndCompare", "y", [(number % 2 == 0, number, 2000) for number in range(200)], 90, timeout=100),
        )
        await asyncio.sleep(0.05)
        Wire.cut = True
        await asyncio.sleep(3)
        more = [asyncio.ensure_future(going)]
        Wire.cut = False
        since = time.monotonic()
        told, page = (await asyncio.gather(*more))[0]
        bench.check(told == (200, 0), f"cut for three seconds: our messages come back, {told}")
        bench.check(page == {"right": 200, "wrong": 0}, f"cut for three seconds: the browser's messages come back, {page}")
        bench.note("cut for three seconds: seconds until all is there", time.monotonic() - since)
        Wire.cut = True
        since = time.monotonic()
        ours.channel.send("into the void")
        bench.check(await until(lambda: ours.channel.readyState == "closed", 90), "cut for good: our channels close")
        bench.note("cut for good: seconds until our channels close", time.monotonic() - since)
        state = await pair.page.call("untilState", "failed", 90, timeout=100)
        bench.check(state, "cut for good: the page's connection fails")


async def slowness(bench, offerer: str) -> None:
    """Our end takes nothing for three seconds, while the browser sends 8 MB."""
    async with Pair(bench, offerer) as pair:
        box = await pair.both("x", {}, "browser")
        box.mode = "keep"
        count = 160
        await pair.page.call("sendNumbered", "x", 0, [50000] * count)
        await asyncio.sleep(0.1)
        time.sleep(3)
        since = time.monotonic()
        whole = await until(lambda: len(box.came) == count, 120)
        bench.check(whole and box.came == list(range(count)), f"all of it comes, {len(box.came)} of {count}")
        bench.note("seconds until all is there", time.monotonic() - since)


async def examples(bench, offerer: str) -> None:
    """The lines of python/README.md as they stand there, and examples/python/echo.py with its page."""
    if offerer == "ours":
        return
    (lines,) = re.findall(r"```python\n(.*?)```", (TOP / "python" / "README.md").read_text(), re.S)
    told: dict = {}
    exec(lines, told)
    page = await bench.browser.page(SCRIPT)
    await page.call("begin")
    await page.call("open", "x", "x", {}, "compare")
    await page.call("accept", await told["answer"](await page.call("description", "offer", None)))
    bench.check(await page.call("untilOpen", "x", 20), "the lines of the README: the channel opens")
    echoed = await page.call("sendAndCompare", "x", [(True, 1, 100), (False, 2, 100000)], 20)
    bench.check(echoed["right"] == 2, "the lines of the README: messages come back")
    await page.close()
    server = await asyncio.create_subprocess_exec(
        sys.executable, TOP / "examples" / "python" / "echo.py", "45800", stdout=asyncio.subprocess.PIPE
    )
    await server.stdout.readline()
    page = await bench.browser.page("", "http://127.0.0.1:45800/")
    said = "(document.body?.innerText ?? '')"
    wait = "(async (text) => { for (let i = 0; i < 400; i++) { if (%s.includes(text)) return true; await new Promise((d) => setTimeout(d, 50)); } return %s; })"
    wait = wait % (said, said)
    bench.check(await page.run(wait + "('connected')") is True, "the page of echo.py: connected")
    await page.run("line.value = 'Zürich 😀'; form.requestSubmit(); 0")
    bench.check(await page.run(wait + "('echo: Zürich 😀')") is True, "the page of echo.py: an echo")
    await page.close()
    server.terminate()
    printed = (await asyncio.wait_for(server.stdout.read(), 10)).decode()
    bench.check("chat: Zürich 😀" in printed, "echo.py prints what came")
    await server.wait()
