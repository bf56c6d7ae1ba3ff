// SPDX-License-Identifier: Apache-2.0
// The page's end. What it is told to do is a function here, called by DevTools; `tell` asks what came.
'use strict';

// Content that both ends can make: bytes of a fixed sequence, from a place that the message's number gives.
const PATTERN = new Uint8Array(1 << 20);
for (let i = 0, state = 1; i < PATTERN.length; i++) {
  state = (Math.imul(state, 1664525) + 1013904223) | 0;
  PATTERN[i] = state >>> 24;
}
const bytesOf = (number, length) => PATTERN.subarray((number * 977) % 65536, ((number * 977) % 65536) + length);
// Text of so many bytes of UTF-8, of letters of one to four bytes.
function textOf(number, length) {
  const head = (number + ':').slice(0, length);
  const rest = length - head.length;
  return head + 'aé漢😀'.repeat(Math.floor(rest / 10)) + 'x'.repeat(rest % 10);
}
const contentOf = (text, number, length) => (text ? textOf(number, length) : bytesOf(number, length));
const same = (a, b) => {
  if (typeof a === 'string' || typeof b === 'string') return a === b;
  if (a.byteLength !== b.byteLength) return false;
  const x = new Uint8Array(a), y = b instanceof Uint8Array ? b : new Uint8Array(b);
  for (let i = 0; i < x.length; i++) if (x[i] !== y[i]) return false;
  return true;
};

let peer;
const channels = new Map();   // by the name that the harness gives, or the label
const log = { closed: [], errors: [], states: [] };

function begin() {
  peer = new RTCPeerConnection();
  peer.ondatachannel = (event) => take(event.channel.label, event.channel, 'echo');
  peer.onconnectionstatechange = () => log.states.push(peer.connectionState);
  return 0;
}

// What a channel does with what comes: 'echo', 'keep' (kinds), 'count' (megabytes) or 'compare' (own echoes).
function take(name, channel, mode) {
  channel.binaryType = 'arraybuffer';
  const it = { channel, mode, came: [], bytes: 0, bad: 0, waits: [], opened: channel.readyState === 'open' };
  channels.set(name, it);
  channel.onopen = () => { it.opened = true; };
  channel.onclose = () => log.closed.push(name);
  channel.onerror = (event) => log.errors.push(name + ': ' + event.error.message);
  channel.onmessage = (event) => received(it, event.data);
  return it;
}

function received(it, data) {
  if (it.mode === 'echo') {
    send(it, data);
  } else if (it.mode === 'keep') {
    it.came.push(numberIn(data));
  } else if (it.mode === 'count') {
    it.bytes += data.byteLength;
    it.last = performance.now();
    if (it.first === undefined) it.first = it.last;
  } else {
    const wanted = it.waits.shift();
    if (wanted === undefined || !same(data, wanted)) it.bad++;
    else it.bytes++;
  }
}

// An echo goes when there is room for it: 16 MiB are all that a channel takes.
async function send(it, data) {
  it.queue = (it.queue || Promise.resolve()).then(async () => {
    while (it.channel.bufferedAmount > 8 << 20) await rest(10);
    if (it.channel.readyState === 'open') it.channel.send(data);
  });
}
const rest = (ms) => new Promise((done) => setTimeout(done, ms));

// A message whose number stands in its first four bytes, and which is right behind them.
function numbered(number, length) {
  const bytes = new Uint8Array(Math.max(length, 4));
  bytes.set(bytesOf(number, bytes.length));
  new DataView(bytes.buffer).setUint32(0, number);
  return bytes;
}
function numberIn(data) {
  if (typeof data === 'string' || data.byteLength < 4) return -1;
  const number = new DataView(data).getUint32(0);
  return same(data, numbered(number, data.byteLength)) ? number : -1;
}

async function description(kind, remote) {
  if (remote) await peer.setRemoteDescription(remote);
  await peer.setLocalDescription(kind === 'offer' ? await peer.createOffer() : await peer.createAnswer());
  while (peer.iceGatheringState !== 'complete') await rest(5);
  return { type: peer.localDescription.type, sdp: peer.localDescription.sdp };
}
const accept = (remote) => peer.setRemoteDescription(remote).then(() => 0);

function open(name, label, options, mode) {
  const it = take(name, peer.createDataChannel(label, options), mode || 'compare');
  return it.channel.id;
}
function setMode(name, mode) { channels.get(name).mode = mode; return 0; }

async function until(check, seconds) {
  const end = performance.now() + 1000 * seconds;
  while (!check()) {
    if (performance.now() > end) return false;
    await rest(5);
  }
  return true;
}
const untilOpen = (name, seconds) => until(() => channels.has(name) && channels.get(name).channel.readyState === 'open', seconds);
const untilClosed = (name, seconds) => until(() => channels.get(name).channel.readyState === 'closed', seconds);
const untilState = (state, seconds) => until(() => peer.connectionState === state, seconds);

function describe(name) {
  const it = channels.get(name);
  if (!it) return null;
  const c = it.channel;
  return { id: c.id, label: c.label, protocol: c.protocol, ordered: c.ordered, maxRetransmits: c.maxRetransmits,
    maxPacketLifeTime: c.maxPacketLifeTime, negotiated: c.negotiated, state: c.readyState, buffered: c.bufferedAmount };
}

// Sends messages and waits for their echoes: [text, number, length] each. Answers how many came back right.
async function sendAndCompare(name, messages, seconds) {
  const it = channels.get(name);
  it.mode = 'compare';
  it.bytes = it.bad = 0;
  for (const [text, number, length] of messages) {
    const content = contentOf(text, number, length);
    it.waits.push(content);
    while (it.channel.bufferedAmount > 8 << 20) await rest(5);
    it.channel.send(content);
  }
  await until(() => it.bytes + it.bad >= messages.length, seconds);
  return { right: it.bytes, wrong: it.bad };
}
function sendPlain(name, text, number, length) {
  try {
    channels.get(name).channel.send(contentOf(text, number, length));
    return 'sent';
  } catch (error) {
    return error.name;
  }
}
function sendNumbered(name, first, lengths) {
  lengths.forEach((length, i) => channels.get(name).channel.send(numbered(first + i, length)));
  return 0;
}
function cameOn(name) {
  const it = channels.get(name);
  const came = it.came;
  it.came = [];
  return came;
}
// Whether one of five messages comes back.
async function comesBack(name) {
  for (let number = 1000; number < 1005; number++) {
    sendNumbered(name, number, [1000]);
    if (await until(() => channels.get(name).came.some((it) => it >= 1000), 4)) return true;
  }
  return false;
}
function close(name) { channels.get(name).channel.close(); return 0; }
function closePeer() { peer.close(); return 0; }
const tell = () => log;

// So many bytes by messages of 64 KiB, held back by bufferedamountlow.
function pour(name, bytes) {
  const c = channels.get(name).channel;
  const message = bytesOf(0, 65536);
  c.bufferedAmountLowThreshold = 1 << 20;
  return new Promise((done) => {
    const fill = () => {
      while (bytes > 0 && c.bufferedAmount < 4 << 20) {
        c.send(message);
        bytes -= message.length;
      }
      if (bytes <= 0) { c.onbufferedamountlow = null; done(0); }
    };
    c.onbufferedamountlow = fill;
    fill();
  });
}
const counted = (name) => { const it = channels.get(name); return { bytes: it.bytes, ms: it.last - it.first }; };
