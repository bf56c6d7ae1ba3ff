# SPDX-License-Identifier: Apache-2.0
"""Data channels by asyncio: a `Connection` has the clock and the timer of its socket, and holds back who sends more than the peer takes. It is made,
and called, in a running loop.

    connection = shelfpigeon.aio.open_udp(("127.0.0.1", 5001), ("127.0.0.1", 5002), role=Role.CLIENT)   # an end; UDP alone is for trusted networks
    await connection.connect()
    channel = connection.open("chat")
    await channel.send("hello")
    async for message in channel: ..
"""
from __future__ import annotations

import asyncio
import logging
import socket
import time
from collections import OrderedDict, deque
from collections.abc import AsyncIterator, Callable, Iterator
from contextlib import contextmanager, suppress
from typing import Optional, Protocol, TypeVar, Union

from . import events
from .channels import Channel as PlainChannel
from .channels import Channels
from .declarations import OptionsStruct, Statistics
from .names import NoChannel, QueueFull, Role, SocketFailed, State
from .sockets import Options

logger = logging.getLogger(__name__)
Address = tuple[str, int]
T = TypeVar("T")
LARGEST = 262144
MOST_TO_ACCEPT = 1024
# No more channels are asked in one turn how much they buffer.
COUNTED_A_TURN = 8


def options_for(max_message_size: int, /, **fields: int) -> Options:
    """`Options.for_webrtc` where messages of so many bytes are taken: the window is twice that, a fragment for each eight bytes of it may be held, and
    messages of that size may be sent. None is less than without, but as the fields say."""
    largest = max(max_message_size, LARGEST)
    window = min(2 * largest, 2**32 - 1)
    sizes = {"max_message_size": largest, "max_receiver_window_buffer_size": window, "max_held_fragments": window // 8}
    return Options.for_webrtc(**{**sizes, **fields})


def sent_at_most(options: OptionsStruct, peer_max_message_size: int) -> int:
    """The most bytes of a message that both the socket and the peer, who takes any at 0, let go; 1 where the socket sends none, since 0 would be any."""
    return min(peer_max_message_size or options.max_message_size, options.max_message_size) or 1


def size_of(message: Union[str, bytes]) -> int:
    """What a message that came counts: an empty one takes memory too, and text up to four bytes a character."""
    is_bytewise = isinstance(message, bytes) or message.isascii()
    return len(message) * (1 if is_bytewise else 4) + 64


def tell(loop: asyncio.AbstractEventLoop, what: str, owner: Callable[..., None], *told) -> None:
    """Calls what may run an owner's code. What that raises goes to the loop's exception handler."""
    try:
        owner(*told)
    except Exception as fault:
        loop.call_exception_handler({"message": f"the owner failed at {what}", "exception": fault})


def next_in_turn(waiting: OrderedDict[T, None], soon: Callable[[], None]) -> Iterator[T]:
    """Takes those out that are looked at in this turn, the first ones, which may be put back behind the others: where many wait a turn costs no more.
    Where one of them stays out the others have another turn `soon`: where nothing is in flight no other one comes."""
    before = len(waiting)
    for _ in range(min(before, COUNTED_A_TURN)):
        yield waiting.popitem(last=False)[0]
    if 0 < len(waiting) < before:
        soon()


class Driver:
    """Turns of a socket with channels in the running loop: it has the clock, and the timer by `poll_timeout`. `send` takes each packet, `handle` each
    other event; `turned` is called behind each turn, and `failed` where the socket has too little memory. What one of these raises goes to the
    loop's exception handler, and the turn goes on."""

    def __init__(
        self,
        channels: Channels,
        send: Callable[[bytes], None],
        handle: Callable[[events.ChannelsEvent], None],
        failed: Callable[[], None],
        turned: Callable[[], None] = lambda: None,
    ):
        self.channels = channels
        self._send, self._handle, self._failed, self._turned = send, handle, failed, turned
        self._loop = asyncio.get_running_loop()
        self._start = time.monotonic_ns()
        self._timer: Optional[asyncio.TimerHandle] = None
        self._due = 0
        self._planned = self._turning = self._stopped = False

    @property
    def is_turning(self) -> bool:
        return self._turning

    def advance(self) -> None:
        """Advances the time."""
        self.channels.advance_time(time.monotonic_ns() - self._start)

    @contextmanager
    def calls(self) -> Iterator[Channels]:
        """Around calls that send, open or close: the time comes first, and behind them a turn comes soon. Where one fails for want of memory all ends."""
        try:
            self.advance()
            yield self.channels
        except SocketFailed:
            self._fail()
            raise
        finally:
            self.soon()

    def receive(self, packet: bytes) -> None:
        """Takes a packet, and what it brings."""
        if self._stopped:
            return
        try:
            self.advance()
            self.channels.handle_input(packet)
        except SocketFailed:
            self._fail()
        else:
            self.turn()

    def soon(self) -> None:
        """Has a turn come once the callbacks that are due have run, so that several calls share it, unless one comes before."""
        if not self._planned and not self._stopped:
            self._planned = True
            self._loop.call_soon(self._planned_turn)

    def _planned_turn(self) -> None:
        if self._planned:
            self.turn()

    def turn(self) -> None:
        """Takes all that was emitted, and sets the timer."""
        if self._stopped or self._turning:
            return
        self._planned, self._turning = False, True
        try:
            while not self._stopped and (event := self.channels.next_event()) is not None:
                if isinstance(event, events.Packet):
                    self._tell("a packet", self._send, event.data)
                else:
                    self._tell(type(event).__name__, self._handle, event)
            while not self._stopped and self.channels.next_given_up() is not None:
                pass  # records are kept until they are taken, and no message of a channel is known by its number
            self._set_timer()
        except SocketFailed:
            self._fail()
        finally:
            self._turning = False
        self._tell("the end of a turn", self._turned)

    def _tell(self, what: str, owner: Callable[..., None], *told) -> None:
        tell(self._loop, what, owner, *told)

    def _set_timer(self) -> None:
        if self._stopped:
            return
        due = self.channels.poll_timeout()
        if self._timer and (due is None or due >= self._due):
            return  # a turn that comes too early does no harm
        if self._timer:
            self._timer.cancel()
            self._timer = None
        if due is not None:
            wait = (due + self._start - time.monotonic_ns()) / 1e9
            self._due, self._timer = due, self._loop.call_later(max(wait, 0), self._expire)

    def _expire(self) -> None:
        self._timer = None
        try:
            self.advance()
        except SocketFailed:
            self._fail()
        else:
            self.turn()

    def _fail(self) -> None:
        self.stop()
        self._tell("the end of the socket", self._failed)

    def stop(self) -> None:
        """No turn comes any more. The socket is its maker's to free."""
        self._stopped = True
        if self._timer:
            self._timer.cancel()
            self._timer = None


class Wire(Protocol):
    """What carries packets. It may lose them."""

    def send(self, packet: bytes) -> None: ...

    def pause_reading(self) -> None: ...

    def resume_reading(self) -> None: ...

    def close(self) -> None: ...


class Flag:
    """What an `asyncio.Event` is, which takes its 0.9 KB only while someone waits: a peer may have very many channels opened."""

    __slots__ = ("_is_set", "_awaited")

    def __init__(self):
        self._is_set, self._awaited = False, None

    def is_set(self) -> bool:
        return self._is_set

    def set(self) -> None:
        self._is_set = True
        if self._awaited is not None:
            self._awaited.set()
            self._awaited = None

    def clear(self) -> None:
        self._is_set = False

    async def wait(self) -> None:
        if self._is_set:
            return
        if self._awaited is None:
            self._awaited = asyncio.Event()
        await self._awaited.wait()


class ChannelClosed(ConnectionError):
    """The channel has been closed. Where `receive` says so, all that came was received, or this end has closed it."""


class Channel:
    """A data channel: `send` waits while too much is buffered, `receive` and `async for` take what comes, until it is closed.

    Who has waited goes on once half of `high_water` is buffered, whether the rest was sent or given up."""

    def __init__(self, connection: Connection, channel: PlainChannel):
        self._connection = connection
        self._channel = channel
        self._came: deque[Union[str, bytes]] = deque()
        self._news, self._room, self._opened, self._closed = Flag(), Flag(), Flag(), Flag()
        self._left = False
        channel.buffered_amount_low_threshold = connection.high_water // 2

    def __del__(self):
        self._connection._forget(self._let_go())

    @property
    def id(self) -> int:
        return self._channel.id

    @property
    def label(self) -> str:
        return self._channel.label

    @property
    def protocol(self) -> str:
        return self._channel.protocol

    @property
    def ordered(self) -> bool:
        return self._channel.ordered

    @property
    def max_retransmissions(self) -> Optional[int]:
        return self._channel.max_retransmissions

    @property
    def lifetime(self) -> Optional[int]:
        return self._channel.lifetime

    @property
    def buffered_amount(self) -> int:
        return self._channel.buffered_amount

    @property
    def statistics(self) -> Statistics:
        return self._channel.statistics

    async def opened(self) -> None:
        """Waits until the peer has it, which isn't known of a channel that was negotiated. Messages may be sent before."""
        await self._opened.wait()
        self._alive()

    async def send(self, message: Union[str, bytes]) -> None:
        """Sends text or bytes, once less than `high_water` is buffered. ChannelClosed: the channel is closed, or being closed."""
        self._alive()
        while self._channel.buffered_amount >= self._connection.high_water:
            self._room.clear()
            self._connection._held_back[self] = None
            await self._room.wait()
            self._alive()
        try:
            with self._connection._driver.calls():
                self._channel.send(message)
        except NoChannel:
            raise self._gone() from None
        except QueueFull:
            if self._connection.socket.state == State.CLOSING:  # the peer shuts down
                raise self._gone() from None
            raise

    async def receive(self) -> Union[str, bytes]:
        """The next message. ChannelClosed: none comes any more."""
        while not self._came:
            self._alive()
            self._news.clear()
            await self._news.wait()
        message = self._came.popleft()
        self._connection._read(size_of(message))
        return message

    async def __aiter__(self) -> AsyncIterator[Union[str, bytes]]:
        while True:
            try:
                message = await self.receive()
            except ChannelClosed:
                return
            yield message

    def close(self) -> None:
        """Closes the channel, behind what was sent. What came and wasn't received is dropped, and so is what still comes. To be called also where the
        peer has closed it, unless all that came is received: what isn't counts against `read_limit` as long as the channel is kept."""
        if not self._closed.is_set():
            with self._connection._driver.calls(), suppress(NoChannel):  # the association has ended, which is still to be told
                self._channel.close()
        self._left = True
        self._connection._read(self._let_go())

    async def wait_closed(self) -> None:
        await self._closed.wait()

    def _alive(self) -> None:
        if self._closed.is_set():
            raise self._gone()

    def _gone(self) -> ChannelClosed:
        return ChannelClosed(f"channel {self.id} is closed")

    def _texts(self) -> int:
        """What its label and its protocol count."""
        return size_of(self.label) + size_of(self.protocol)

    def _let_go(self) -> int:
        """Drops what came and wasn't received, and answers what it counted."""
        size = sum(map(size_of, self._came))
        self._came.clear()
        return size

    def _end(self) -> None:
        for it in (self._closed, self._news, self._room, self._opened):
            it.set()


class Connection:
    """An association with data channels over a wire. `packet_received` takes what comes by it.

    Each channel buffers `high_water` bytes, then `Channel.send` waits; it raises QueueFull where the options let less wait, on a stream (16 MiB by
    `Options.for_webrtc`) or on all. Beyond `read_limit` bytes that came and weren't received, where each message counts 64 more, and of text that isn't
    ASCII each character four, the wire is told to pause: what it then drops the peer sends again, and slower, but for an ABORT, and messages that
    its channels give up. Meanwhile no acknowledgement comes either: what is sent here waits, `close` waits in vain, and after some minutes, or 13
    seconds where both a message and the close of a channel wait for answers, the association is aborted (`max_retransmissions`). Label and
    protocol of a channel count so until it is accepted. So the channels that the peer opens are to be accepted, and those that aren't read any more
    closed. While 1,024 wait to be accepted the next ones are closed; one that the peer has closed meanwhile, by which nothing came, waits no more.

    Without `options` the window is twice `max_message_size`, which is what the peer may send, 524,288 bytes at least, and as long a message may be
    sent, 262,144 bytes at least, where `peer_max_message_size` allows it. `max_kept_bytes` is as of `Channels`."""

    def __init__(
        self,
        wire: Wire,
        *,
        role: Role,
        options: Optional[OptionsStruct] = None,
        max_message_size: int = 262144,
        peer_max_message_size: int = 262144,
        max_kept_bytes: int = 16777216,
        high_water: int = 1 << 20,
        read_limit: int = 4 << 20,
    ):
        options = options_for(max_message_size) if options is None else options
        channels = Channels(
            role,
            options,
            max_message_size=max_message_size,
            peer_max_message_size=sent_at_most(options, peer_max_message_size),
            max_buffered_amount=2**32 - 1,
            max_kept_bytes=max_kept_bytes,
        )
        self.high_water, self.read_limit = high_water, read_limit
        self.error: Optional[events.Aborted] = None
        self._wire, self._paused, self._unread = wire, False, 0
        self._driver = Driver(channels, wire.send, self._handle, self._end, self._turned)
        self._channels: dict[PlainChannel, Channel] = {}
        self._held_back: OrderedDict[Channel, None] = OrderedDict()  # those that are looked at next first
        self._accepted: OrderedDict[Channel, None] = OrderedDict()
        self._news = asyncio.Event()
        self._connected, self._closed = asyncio.Event(), asyncio.Event()

    def packet_received(self, packet: bytes) -> None:
        """Takes a packet that came by the wire."""
        self._driver.receive(packet)

    async def connect(self) -> None:
        """Opens the association; both ends may, each before a packet of the other comes: else what that one has sent may be lost, and this end awaits
        `connected` alone. ConnectionError: it could not be."""
        self._alive()
        if self.socket.state == State.CLOSED:
            with self._driver.calls() as channels:
                channels.connect()
        await self.connected()

    async def connected(self) -> None:
        """Waits until the association is there, whoever opened it."""
        await self._connected.wait()
        self._alive()

    @property
    def socket(self) -> Channels:
        """The socket: its metrics, its state. What changes it goes by this connection."""
        return self._driver.channels

    def open(self, label: str, protocol: str = "", **kind) -> Channel:
        """Opens a channel; `kind` is as of `Channels.open`. Messages may be sent at once."""
        self._alive()
        with self._driver.calls() as channels:
            if channels.state == State.CLOSING:
                raise ConnectionError("the association is ending")
            return self._channel_of(channels.open(label, protocol, **kind))

    def negotiate(self, id: int, label: str = "", protocol: str = "", **kind) -> Channel:
        """A channel that both ends have agreed on."""
        self._alive()
        with self._driver.calls() as channels:
            channel = self._channel_of(channels.negotiate(id, label, protocol, **kind))
        channel._opened.set()
        return channel

    async def accept(self) -> Channel:
        """The next channel that the peer opens."""
        while not self._accepted:
            self._alive()
            self._news.clear()
            await self._news.wait()
        channel, _ = self._accepted.popitem(last=False)
        self._read(channel._texts())
        return channel

    async def __aiter__(self) -> AsyncIterator[Channel]:
        while True:
            try:
                channel = await self.accept()
            except ConnectionError:
                return
            yield channel

    async def close(self, timeout: float = 5) -> None:
        """Waits until what was sent has arrived, `timeout` seconds at most, and ends the association by an ABORT, at which browsers close their
        channels: at a SHUTDOWN they don't."""
        if not self._closed.is_set():
            until = time.monotonic() + timeout
            try:
                while not self._closed.is_set() and not self.socket.is_at_rest and time.monotonic() < until:
                    await asyncio.sleep(0.01)
            finally:
                self.abort()
        await self._closed.wait()

    def abort(self) -> None:
        """Ends the association at once."""
        if not self._closed.is_set():
            with self._driver.calls() as channels:
                channels.close()
            if self._driver.is_turning:  # the wire has called: the turn sends the ABORT yet
                asyncio.get_running_loop().call_soon(self._end)
            else:
                self._driver.turn()
                self._end()

    async def wait_closed(self) -> None:
        await self._closed.wait()

    async def __aenter__(self) -> Connection:
        return self

    async def __aexit__(self, *_) -> None:
        await self.close()

    def _alive(self) -> None:
        if self._closed.is_set():
            raise ConnectionError(self.error.text if self.error else "the association has ended")

    def _channel_of(self, channel: PlainChannel) -> Channel:
        if channel not in self._channels:
            self._channels[channel] = Channel(self, channel)
        return self._channels[channel]

    def _handle(self, event: events.ChannelsEvent) -> None:
        match event:
            case events.ChannelMessage(channel, data):
                mine = self._channels.get(channel)
                if mine is None or mine._left:
                    return
                mine._came.append(data)
                mine._news.set()
                self._keep(size_of(data))
            case events.ChannelOpened(channel):
                if channel not in self._channels:
                    self._offer(channel)
                if channel in self._channels:
                    self._channels[channel]._opened.set()
            case events.ChannelBufferedAmountLow(channel):
                if channel in self._channels:
                    self._channels[channel]._room.set()
            case events.ChannelClosed(channel):
                if (mine := self._channels.pop(channel, None)) is not None:
                    mine._end()
                    self._withdraw(mine)
            case events.Connected():
                self._connected.set()
            case events.Aborted() | events.Closed():
                self.error = event if isinstance(event, events.Aborted) else None
                self._end()
            case events.Reported() | events.ChannelRefused() | events.Restarted():
                logger.info("%s", event)

    def _offer(self, channel: PlainChannel) -> None:
        if len(self._accepted) >= MOST_TO_ACCEPT:
            with self._driver.calls(), suppress(NoChannel):
                channel.close()
            return
        mine = self._channel_of(channel)
        self._accepted[mine] = None
        self._keep(mine._texts())
        self._news.set()

    def _withdraw(self, channel: Channel) -> None:
        """Has a channel that is closed, and by which nothing came, wait no more to be accepted."""
        if not channel._came and channel in self._accepted:
            del self._accepted[channel]
            self._read(channel._texts())

    def _keep(self, size: int) -> None:
        self._unread += size
        if self._unread > self.read_limit and not self._paused:
            self._paused = True
            self._wire.pause_reading()

    def _turned(self) -> None:
        """Where messages were given up there may be room again of which no event says so; with `AVOID_STALLS` only by a reset or an end."""
        for channel in next_in_turn(self._held_back, self._driver.soon):
            if channel.buffered_amount <= self.high_water // 2:
                channel._room.set()
            else:
                self._held_back[channel] = None

    def _read(self, size: int) -> None:
        self._unread -= size
        if self._paused and self._unread <= self.read_limit // 2:
            self._paused = False
            tell(self._driver._loop, "the end of a pause", self._wire.resume_reading)

    def _forget(self, size: int) -> None:
        """As `_read`, of a channel that is collected, in whichever thread."""
        if size:
            with suppress(RuntimeError):  # the loop has ended
                self._driver._loop.call_soon_threadsafe(self._read, size)

    def _end(self) -> None:
        if self._closed.is_set():
            return
        self._driver.stop()
        self._paused = False  # what is received later resumes nothing
        self._held_back.clear()
        for channel in list(self._channels.values()):
            channel._end()
        for it in (self._connected, self._closed, self._news):
            it.set()
        self._wire.close()


class UdpWire:
    """A UDP socket between two addresses. Who sees its packets can forge others: on a network that strangers reach SCTP goes through DTLS."""

    def __init__(self, local: Address, peer: Address):
        self._loop = asyncio.get_running_loop()
        self._socket = socket.socket(socket.AF_INET, socket.SOCK_DGRAM)
        self._socket.setblocking(False)
        self._socket.bind(local)
        self._socket.connect(peer)
        self._receive: Callable[[bytes], None] = lambda packet: None

    def start(self, receive: Callable[[bytes], None]) -> None:
        self._receive = receive
        self.resume_reading()

    def _read(self) -> None:
        for _ in range(16):
            try:
                packet = self._socket.recv(65536)
            except BlockingIOError:
                return
            except OSError:
                continue  # the peer isn't there yet, or any more
            self._receive(packet)
            if self._socket.fileno() < 0:
                return

    def send(self, packet: bytes) -> None:
        try:
            self._socket.send(packet)
        except OSError:
            pass  # lost: it is sent again in time

    def pause_reading(self) -> None:
        self._loop.remove_reader(self._socket)

    def resume_reading(self) -> None:
        if self._socket.fileno() >= 0:
            self._loop.add_reader(self._socket, self._read)

    def close(self) -> None:
        if self._socket.fileno() >= 0:
            self.pause_reading()
            self._socket.close()


def open_udp(local: Address, peer: Address, *, role: Role, **settings) -> Connection:
    """A connection over UDP between two addresses, with the settings of `Connection`. Then comes its `connect`."""
    wire = UdpWire(local, peer)
    try:
        connection = Connection(wire, role=role, **settings)
    except BaseException:
        wire.close()
        raise
    wire.start(connection.packet_received)
    return connection
