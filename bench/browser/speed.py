# SPDX-License-Identifier: Apache-2.0
"""Megabytes each way and where the time goes, and a soak."""
from __future__ import annotations

import asyncio
import collections
import random
import signal
import time

from checks import OPENERS, KINDS
from ends import Pair, until

PARTS = {
    "SCTP": ("/shelfpigeon/", "/rtcsctptransport.py", "/rtcdatachannel.py"),
    "DTLS": ("/rtcdtlstransport.py", "/OpenSSL/"),
    "ICE": ("/aioice/", "/rtcicetransport.py"),
    "loop": ("/asyncio/", "/selectors.py"),
}


class Sampler:
    """Where the process's time goes: a thousand times a second of it, whose code runs."""

    def __enter__(self) -> Sampler:
        self.found: collections.Counter = collections.Counter()
        signal.signal(signal.SIGPROF, self._sample)
        signal.setitimer(signal.ITIMER_PROF, 0.001, 0.001)
        self.since = time.process_time()
        return self

    def _sample(self, _, frame) -> None:
        while frame is not None:
            file = frame.f_code.co_filename
            for part, places in PARTS.items():
                if any(it in file for it in places):
                    self.found[part] += 1
                    return
            frame = frame.f_back
        self.found["harness"] += 1

    def __exit__(self, *_) -> None:
        signal.setitimer(signal.ITIMER_PROF, 0)
        self.seconds = time.process_time() - self.since

    def told(self) -> str:
        total = sum(self.found.values()) or 1
        return ", ".join(f"{part} {100 * self.found[part] / total:.0f} %" for part in [*PARTS, "harness"])


async def negotiated(bench, interleaving: bool) -> None:
    """What the two ends agree on."""
    async with Pair(bench, "browser") as pair:
        metrics = pair.end.sctp.socket.metrics()
        bench.check(metrics.uses_message_interleaving == interleaving, "interleaving is as asked for")
        streams = (metrics.negotiated_maximum_incoming_streams, metrics.negotiated_maximum_outgoing_streams)
        print(f"streams {streams}, window of the browser {metrics.peer_rwnd_bytes}, zero checksum {metrics.uses_zero_checksum}", flush=True)


async def megabytes(bench, size: int) -> None:
    """So many MB each way, one way after the other, by bufferedamountlow."""
    for way in ("in", "out"):
        async with Pair(bench, "browser") as pair:
            box = await pair.both("x", {}, "ours")
            box.mode = "count"
            await pair.page.call("setMode", "x", "count")
            with Sampler() as sampler:
                if way == "in":
                    await pair.page.call("pour", "x", size << 20, timeout=600)
                    whole = await until(lambda: box.bytes == size << 20, 300)
                    took = box.last - box.first
                else:
                    await box.pour(size << 20)
                    whole = await pair.page.run(f"until(() => channels.get('x').bytes === {size << 20}, 300)", timeout=310)
                    took = (await pair.page.call("counted", "x"))["ms"] / 1000
            bench.check(whole, f"{size} MB {way} are whole")
            rate = size * 1.048576 / took
            used = sampler.seconds / (size * 1.048576)
            print(f"megabytes {way}: {rate:.1f} MB/s, {1000 * used:.0f} ms of processor time a MB, of which {sampler.told()}", flush=True)


async def soak(bench, minutes: float, offerer: str) -> None:
    """For so long channels of all kinds are opened, used and closed by either end, with now and then packets lost; each echo is right."""
    end, drawn, turns, echoes = time.monotonic() + 60 * minutes, random.Random(7), 0, 0
    async with Pair(bench, offerer) as pair:
        while time.monotonic() < end:
            turns += 1
            pair.wire.rate = drawn.choice((0.0, 0.0, 0.005, 0.02))
            reliable = drawn.random() < 0.7
            kind = drawn.choice([it for name, it in KINDS.items() if name.endswith("reliable")] if reliable else list(KINDS.values()))
            opener, name, count = drawn.choice(OPENERS), f"soak {turns}", drawn.choice((1, 10, 100, 300))
            box = await pair.both(name, kind, opener, 60)
            lengths = (0, 1, 100, 1000, 10000, 60000) if count < 100 else range(2000)
            messages = [(drawn.random() < 0.5, number, drawn.choice(lengths)) for number in range(count)]
            loose = not kind["ordered"] or len(kind) > 1
            if loose:  # what comes back is another matter: it is only to go on
                for text, number, length in messages:
                    if opener == "ours":
                        box.channel.send(("t" * length) if text else bytes(length))
                await asyncio.sleep(0.5)
            elif opener == "ours":
                told = await box.compare(messages, 120)
                bench.check(told == (count, 0), f"{name}: {told} of {count}")
                echoes += told[0]
            else:
                told = await pair.page.call("sendAndCompare", name, messages, 120, timeout=130)
                bench.check(told == {"right": count, "wrong": 0}, f"{name}: {told} of {count}")
                echoes += told["right"]
            if drawn.random() < 0.5:
                box.channel.close()
            else:
                await pair.page.call("close", name)
            closed = await until(lambda: box.channel.readyState == "closed", 60)
            bench.check(closed, f"{name}: it closes")
            del pair.boxes[name]
            await pair.page.run(f"channels.delete({name!r})")
    print(f"soak {offerer}: {minutes:g} minutes, {turns} channels, {echoes} echoes, {len(bench.failed)} failed", flush=True)
