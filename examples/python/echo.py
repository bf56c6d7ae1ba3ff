#!/usr/bin/env python3
# SPDX-License-Identifier: Apache-2.0
"""A page to chat with: `python3 echo.py`, and open http://127.0.0.1:8000 in a browser. What is typed there goes over a data channel, whose other
end is here: aiortc's ICE and DTLS, and the SCTP of this repository. Needs aiortc, and the package: pip install ./python, or PYTHONPATH=python."""
import asyncio
import contextlib
import json
import sys

import aiortc
import shelfpigeon

shelfpigeon.use_for(aiortc)  # the one line

PAGE = """<!doctype html><meta charset="utf-8"><title>Shelfpigeon</title>
<body style="font: 16px sans-serif; max-width: 40em; margin: 2em auto"><h1>Shelfpigeon</h1><p id="state">connects ..</p>
<form id="form"><input id="line" size="50" autofocus><button>Send</button></form><ul id="lines"></ul>
<script>
const show = (text) => document.getElementById('lines').prepend(Object.assign(document.createElement('li'), { textContent: text }));
const state = document.getElementById('state');
const peer = new RTCPeerConnection();
const chat = peer.createDataChannel('chat');
chat.onopen = () => { state.textContent = 'connected'; };
chat.onclose = () => { state.textContent = 'closed'; };
chat.onmessage = (event) => show(event.data);
document.getElementById('form').onsubmit = (event) => {
  event.preventDefault();
  const line = document.getElementById('line');
  show('you: ' + line.value);
  chat.send(line.value);
  line.value = '';
};
(async () => {
  await peer.setLocalDescription();
  if (peer.iceGatheringState !== 'complete')
    await new Promise((done) => { peer.onicegatheringstatechange = () => peer.iceGatheringState === 'complete' && done(); });
  const answer = await fetch('/offer', { method: 'POST', body: JSON.stringify(peer.localDescription) });
  await peer.setRemoteDescription(await answer.json());
})().catch((error) => { state.textContent = error; });
</script>
"""
ends = set()


async def answer(offer: dict) -> dict:
    """Our description, for the browser's."""
    end = aiortc.RTCPeerConnection(aiortc.RTCConfiguration(iceServers=[]))
    ends.add(end)

    @end.on("datachannel")
    def opened(channel):
        print(f"{channel.label}: opened", flush=True)
        channel.send("hello from Python")
        channel.on("message", lambda message: reply(channel, message))
        channel.on("close", lambda: print(f"{channel.label}: closed", flush=True))

    @end.on("connectionstatechange")
    async def changed():
        if end.connectionState in ("failed", "closed"):
            await end.close()
            ends.discard(end)

    await end.setRemoteDescription(aiortc.RTCSessionDescription(**offer))
    await end.setLocalDescription(await end.createAnswer())
    return {"type": end.localDescription.type, "sdp": end.localDescription.sdp}


def reply(channel, message) -> None:
    print(f"{channel.label}: {message}", flush=True)
    with contextlib.suppress(aiortc.exceptions.InvalidStateError, aiortc.exceptions.OperationError):  # it is closing, or takes no more
        channel.send(f"echo: {message}" if isinstance(message, str) else message)


async def serve(reader: asyncio.StreamReader, writer: asyncio.StreamWriter) -> None:
    """One request of HTTP: the page, or an offer."""
    try:
        head = (await reader.readuntil(b"\r\n\r\n")).decode()
        length = next((int(it.split(":")[1]) for it in head.split("\r\n") if it.lower().startswith("content-length:")), 0)
        status, kind, body = "404 Not Found", "text/plain", ""
        if head.startswith("POST /offer "):
            status, kind, body = "200 OK", "application/json", json.dumps(await answer(json.loads(await reader.readexactly(length))))
        elif head.startswith("GET / "):
            status, kind, body = "200 OK", "text/html", PAGE
        told = body.encode()
        writer.write(f"HTTP/1.1 {status}\r\nContent-Type: {kind}\r\nContent-Length: {len(told)}\r\nConnection: close\r\n\r\n".encode() + told)
        await writer.drain()
    except (asyncio.IncompleteReadError, ConnectionError):
        pass
    finally:
        writer.close()


async def main(port: int) -> None:
    server = await asyncio.start_server(serve, "127.0.0.1", port)
    print(f"http://127.0.0.1:{port}", flush=True)
    try:
        await server.serve_forever()
    finally:
        await asyncio.gather(*[end.close() for end in ends])


if __name__ == "__main__":
    try:
        asyncio.run(main(int(sys.argv[1]) if len(sys.argv) > 1 else 8000))
    except KeyboardInterrupt:
        pass
