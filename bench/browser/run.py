# SPDX-License-Identifier: Apache-2.0
"""Runs the checks, and prints a row for each: see scripts/browser."""
from __future__ import annotations

import argparse
import asyncio
import importlib.metadata
import logging
import sys
import time
import traceback

import aiortc
import chromium
import checks
import speed

CHECKS = [checks.opening, checks.sizes, checks.many, checks.kinds, checks.closing, checks.leaving, checks.outages, checks.slowness, checks.examples]
NAMES = [it.__name__ for it in CHECKS]


class Bench:
    """Counts what holds, and tells what doesn't."""

    def __init__(self, ours: bool, loud: bool):
        self.ours, self.loud = ours, loud
        self.passed, self.failed, self.notes = 0, [], []

    def check(self, holds: bool, what: str) -> None:
        if holds:
            self.passed += 1
        else:
            self.failed.append(what)
            print(f"    FAILED {what}", flush=True)

    def check_many(self, passed: int, failed: int, what: str) -> None:
        self.passed += passed
        for _ in range(failed):
            self.check(False, what)

    def note(self, what: str, value: float) -> None:
        self.notes.append((what, value))
        if self.loud:
            print(f"    {what}: {value:.2f}", flush=True)

    async def goes_on(self, pair, boxes, what: str) -> bool:
        """Whether both ends have sent all that waits."""
        still = sum([(await pair.page.call("describe", name))["buffered"] + box.channel.bufferedAmount for name, box in boxes.items()])
        self.check(still == 0, f"{what}: {still} bytes still wait")
        return still == 0


async def run(bench: Bench, check, offerer: str) -> None:
    before, since = bench.passed, time.monotonic()
    failed = len(bench.failed)
    try:
        await check(bench, offerer)
    except Exception as fault:
        bench.check(False, f"it ended by {type(fault).__name__}: {fault}")
        if bench.loud:
            traceback.print_exc()
    took = time.monotonic() - since
    print(f"{check.__name__} {offerer}: {bench.passed - before} passed, {len(bench.failed) - failed} failed, {took:.0f} s", flush=True)


async def main() -> int:
    parser = argparse.ArgumentParser(prog="browser")
    parser.add_argument("names", nargs="*", help=f"checks to run, of {' '.join(NAMES)} megabytes")
    parser.add_argument("--interleaving", action="store_true")
    parser.add_argument("--stack", choices=("ours", "aiortc"), default="ours")
    parser.add_argument("--offerer", choices=("browser", "ours"))
    parser.add_argument("--soak", type=float, default=0, metavar="MINUTES")
    parser.add_argument("--megabytes", type=int, default=32)
    parser.add_argument("--window", type=int, default=0, metavar="BYTES")
    parser.add_argument("--loud", action="store_true")
    asked = parser.parse_intermixed_args()
    logging.basicConfig(level=logging.WARNING if asked.loud else logging.CRITICAL)
    logging.getLogger("shelfpigeon").setLevel(logging.INFO if asked.loud else logging.CRITICAL)
    bench = Bench(asked.stack == "ours", asked.loud)
    if bench.ours:
        import shelfpigeon

        options = {}
        if asked.interleaving:
            flags = shelfpigeon.Options.for_webrtc().flags
            options["flags"] = flags | shelfpigeon.OptionFlags.MESSAGE_INTERLEAVING
        if asked.window:
            options["max_receiver_window_buffer_size"] = asked.window
        shelfpigeon.use_for(aiortc, options=options)
    flags = (chromium.INTERLEAVING,) if asked.interleaving else ()
    async with chromium.Chromium(flags=flags) as bench.browser:
        kind = "I-DATA" if asked.interleaving else "DATA"
        print(f"Chromium {bench.browser.version}, aiortc {importlib.metadata.version('aiortc')}, SCTP of {asked.stack}, {kind}", flush=True)
        if bench.ours:
            await speed.negotiated(bench, asked.interleaving)
        for check in CHECKS:
            if check.__name__ in asked.names or not asked.names and not asked.soak:
                for offerer in [asked.offerer] if asked.offerer else checks.OPENERS:
                    await run(bench, check, offerer)
        if "megabytes" in asked.names or not asked.names and not asked.soak:
            await speed.megabytes(bench, asked.megabytes)
        if asked.soak:
            await speed.soak(bench, asked.soak, asked.offerer or "browser")
    print(f"{bench.passed} passed, {len(bench.failed)} failed")
    return 1 if bench.failed else 0


if __name__ == "__main__":
    sys.exit(asyncio.run(main()))
