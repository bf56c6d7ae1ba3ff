# SPDX-License-Identifier: Apache-2.0
"""aiortc with this library's SCTP and data channels in the place of its own, over its ICE and DTLS. An application changes one line:

    shelfpigeon.use_for(aiortc)
"""
from __future__ import annotations

import asyncio
import functools
import logging
from collections import OrderedDict, deque
from collections.abc import Callable
from contextlib import suppress
from dataclasses import dataclass, field
from types import ModuleType
from typing import Optional, Union

from aiortc.exceptions import InvalidStateError, OperationError  # type: ignore[import]
from aiortc.rtcdatachannel import RTCDataChannel, RTCDataChannelParameters  # type: ignore[import]
from aiortc.rtcsctptransport import RTCSctpCapabilities, RTCSctpTransport  # type: ignore[import]

from . import events
from .aio import Driver, next_in_turn, options_for, sent_at_most, tell
from .channels import Channel, Channels, channel_options
from .names import MessageTooLarge, NoChannel, PigeonError, QueueFull, Role, SocketFailed, State

logger = logging.getLogger(__name__)


@dataclass
class Settings:
    """`options` are fields of `Options` that are to have another value, `max_message_size` is the a=max-message-size that is announced, by which the
    window is twice as wide, 524,288 bytes at least, `max_buffered_amount` what a channel buffers before `send` raises OperationError (above 16 MiB with
    `per_stream_send_queue_limit` among the options), and `max_kept_bytes` is as of
    `Channels`. Messages that are sent have at most `max_message_size` bytes or 262,144, whichever is more, where the peer takes them: at a longer one
    `send` raises ValueError."""

    max_message_size: int = 262144
    max_buffered_amount: int = 16777216
    max_kept_bytes: int = 16777216
    options: dict[str, int] = field(default_factory=dict)


class SctpTransport(RTCSctpTransport):
    """In the place of aiortc's RTCSctpTransport."""

    settings = Settings()

    def __init__(self, transport, port: int = 5000) -> None:
        super().__init__(transport, port)
        self._state_name = "new"
        self._driver: Optional[Driver] = None  # from the start on
        self._of: dict[Channel, RTCDataChannel] = {}
        self._plain: dict[RTCDataChannel, Channel] = {}
        self._waiting: list[RTCDataChannel] = []
        self._buffering: OrderedDict[RTCDataChannel, None] = OrderedDict()  # those that are counted next first
        self._low: dict[RTCDataChannel, int] = {}  # the thresholds that are set
        self._packets: deque[bytes] = deque()
        self._flushing: Optional[asyncio.Task] = None

    def _driven(self) -> Driver:
        assert self._driver, "the transport hasn't started"
        return self._driver

    @property
    def state(self) -> str:
        return self._state_name

    @property
    def is_server(self) -> bool:
        return self.transport._role == "server"

    @property
    def socket(self) -> Optional[Channels]:
        """The socket, once the transport has started: its metrics, its state."""
        return self._driver.channels if self._driver else None

    @property
    def maxChannels(self) -> Optional[int]:
        metrics = self.socket.metrics() if self.socket else None
        return min(metrics.negotiated_maximum_incoming_streams, metrics.negotiated_maximum_outgoing_streams) if metrics else None

    @classmethod
    def getCapabilities(cls) -> RTCSctpCapabilities:
        return RTCSctpCapabilities(maxMessageSize=cls.settings.max_message_size)

    async def start(self, remoteCaps: Optional[RTCSctpCapabilities], remotePort: int) -> None:
        """Starts once DTLS is there: both ends may connect."""
        if self._driver or self._state_name == "closed":
            return
        settings = self.settings
        ports = {"local_port": self._local_port, "remote_port": remotePort or 5000}
        options = options_for(settings.max_message_size, **{**ports, **settings.options})
        channels = Channels(
            Role.SERVER if self.is_server else Role.CLIENT,
            options,
            max_message_size=settings.max_message_size,
            peer_max_message_size=sent_at_most(options, remoteCaps.maxMessageSize if remoteCaps else 65536),
            max_buffered_amount=settings.max_buffered_amount,
            max_kept_bytes=settings.max_kept_bytes,
        )
        self._state_name = "connecting"
        self._driver = Driver(channels, self._send_packet, self._handle, self._ended, self._count)
        self.transport._register_data_receiver(self)
        self.transport.on("statechange", self._transport_changed)
        with self._driver.calls():
            waiting = sorted(self._waiting, key=lambda it: not it.negotiated)  # those that have their numbers, then those that take a free one
            self._waiting.clear()
            for channel in waiting:
                self._begin_or_close(channel)
            channels.connect()

    async def stop(self) -> None:
        """Ends the association by an ABORT, at which browsers close their channels."""
        if self._driver and self._state_name != "closed":
            with self._driver.calls() as channels:
                channels.close()
            self._driver.turn()
            await self._flush()
        self._ended()

    async def shutdown(self) -> None:
        """Ends the association once nothing is in flight. Browsers leave their channels open then."""
        if self._driver and self._state_name == "connected":
            with self._driver.calls() as channels:
                channels.shutdown()
            self._driver.turn()
            await self._flush()

    def _transport_changed(self) -> None:
        if self.transport.state in ("closed", "failed"):
            self._ended()

    def _ended(self) -> None:
        if self._state_name == "closed":
            return
        self._state_name = "closed"
        if self._driver:
            self._driver.stop()
            self.transport._unregister_data_receiver(self)
        ended = [*self._waiting, *self._plain]
        self._waiting.clear()
        self._plain.clear()
        self._of.clear()
        self._low.clear()
        for channel in ended:
            self._tell("the end of a channel", channel._setReadyState, "closed")
        self._tell("the end of the transport", self.emit, "statechange")
        self.remove_all_listeners()

    def _tell(self, what: str, owner: Callable[..., None], *told) -> None:
        tell(asyncio.get_running_loop(), what, owner, *told)

    # packets

    async def _handle_data(self, data: bytes) -> None:
        self._driven().receive(data)
        await self._flush()

    def _send_packet(self, packet: bytes) -> None:
        self._packets.append(packet)
        if self._flushing is None:
            self._flushing = asyncio.ensure_future(self._flush())

    async def _flush(self) -> None:
        try:
            while self._packets:
                try:
                    await self.transport._send_data(self._packets.popleft())
                except ConnectionError:
                    self._packets.clear()
                except Exception as fault:
                    logger.warning("DTLS has lost a packet: %s", fault)
        finally:
            self._flushing = None

    # events

    def _handle(self, event: events.ChannelsEvent) -> None:
        match event:
            case events.ChannelMessage(channel, data) if channel in self._of:
                self._of[channel].emit("message", data)
            case events.ChannelBufferedAmountLow(channel) if channel in self._of:
                self._recount(self._of[channel])
            case events.ChannelOpened(channel) if channel in self._of:
                self._opened(self._of[channel])
            case events.ChannelOpened(channel):
                self.emit("datachannel", self._taken(channel))
            case events.ChannelClosed(channel) if channel in self._of:
                mine = self._of.pop(channel)
                del self._plain[mine]
                self._low.pop(mine, None)
                mine._setReadyState("closed")
            case events.Connected():
                self._state_name = "connected"
                self._tell("statechange", self.emit, "statechange")
                for mine in list(self._plain):
                    if mine.negotiated:
                        self._tell("an open channel", self._opened, mine)
            case events.Closed() | events.Aborted():
                logger.info("%s", event)
                self._ended()
            case events.Reported() | events.ChannelRefused() | events.Restarted():
                logger.info("%s", event)

    def _opened(self, mine: RTCDataChannel) -> None:
        if mine.readyState == "connecting":  # one that was closed meanwhile stays so
            mine._setReadyState("open")

    def _taken(self, channel: Channel) -> RTCDataChannel:
        """A channel that the peer opened."""
        parameters = RTCDataChannelParameters(
            label=channel.label,
            protocol=channel.protocol,
            ordered=channel.ordered,
            maxRetransmits=channel.max_retransmissions,
            maxPacketLifeTime=channel.lifetime,
            id=channel.id,
        )
        mine = RTCDataChannel(self, parameters, False)
        self._join(mine, channel)
        mine._setReadyState("open")
        return mine

    def _join(self, mine: RTCDataChannel, channel: Channel) -> None:
        self._of[channel], self._plain[mine] = mine, channel
        mine._setId(channel.id)

    def _count(self) -> None:
        """Recounts what channels buffer, in turn. Which is low is told of each."""
        for mine in next_in_turn(self._buffering, lambda: self._driven().soon()):
            self._tell("bufferedamountlow", self._recount, mine)

    def _recount(self, mine: RTCDataChannel) -> None:
        """Has bufferedAmount follow what waits, by which bufferedamountlow is emitted."""
        waits = min(self._plain[mine].buffered_amount, mine.bufferedAmount) if mine in self._plain else 0  # a message of the opening isn't the owner's
        if waits:
            self._buffering[mine] = None
        else:
            self._buffering.pop(mine, None)
        mine._addBufferedAmount(waits - mine.bufferedAmount)

    # what RTCDataChannel calls

    def _begin(self, mine: RTCDataChannel) -> None:
        channels, kind = self._driven().channels, kind_of(mine)
        if mine.negotiated:
            self._join(mine, channels.negotiate(mine.id, mine.label, mine.protocol, **kind))
            if self._state_name == "connected":
                mine._setReadyState("open")
        else:
            self._join(mine, channels.open(mine.label, mine.protocol, **kind))

    def _begin_or_close(self, mine: RTCDataChannel) -> None:
        try:
            self._begin(mine)
        except SocketFailed:
            raise
        except PigeonError as fault:
            logger.warning("channel %r can't be: %s", mine.label, fault)
            self._tell("the end of a channel", mine._setReadyState, "closed")

    def _data_channel_open(self, mine: RTCDataChannel) -> None:
        if self._state_name == "closed" or self._driver and self._driver.channels.state == State.CLOSING:
            raise InvalidStateError
        if len(mine.label.encode()) > 65535 or len(mine.protocol.encode()) > 65535:
            raise ValueError("a label or a protocol has at most 65,535 bytes")
        channel_options(**kind_of(mine), priority=0)  # raises where a number is out of bounds
        if mine.negotiated and mine.id in [it.id for it in self._waiting]:  # `negotiate` looks at those that there are
            raise ValueError(f"there is a channel {mine.id} already")
        if self._driver is None:
            self._waiting.append(mine)
            return
        with self._driver.calls():
            self._begin(mine)

    def _data_channel_add_negotiated(self, mine: RTCDataChannel) -> None:
        self._data_channel_open(mine)

    def _data_channel_send(self, mine: RTCDataChannel, data: Union[str, bytes]) -> None:
        channel = self._plain.get(mine)
        if channel is None:
            raise InvalidStateError
        try:
            with self._driven().calls():
                if self._low.get(mine) != mine.bufferedAmountLowThreshold:
                    channel.buffered_amount_low_threshold = self._low[mine] = mine.bufferedAmountLowThreshold
                channel.send(data)
        except NoChannel:
            mine._setReadyState("closing")  # the peer closes it
            raise InvalidStateError from None
        except MessageTooLarge as fault:
            raise ValueError(str(fault)) from None
        except QueueFull as fault:
            if self._driven().channels.state == State.CLOSING:  # the peer shuts down
                raise InvalidStateError from None
            raise OperationError(str(fault)) from None
        mine._addBufferedAmount(len(data) if isinstance(data, bytes) else len(data.encode()))
        self._buffering[mine] = None

    def _data_channel_close(self, mine: RTCDataChannel, transmit: bool = True) -> None:
        if mine.readyState in ("closing", "closed"):
            return
        channel = self._plain.get(mine)
        if channel is None:
            self._waiting = [it for it in self._waiting if it is not mine]
            mine._setReadyState("closed")
            return
        mine._setReadyState("closing")
        with self._driven().calls(), suppress(NoChannel):  # the association has ended, which is still to be told
            channel.close()


def kind_of(mine: RTCDataChannel) -> dict:
    return {"ordered": mine.ordered, "max_retransmissions": mine.maxRetransmits, "lifetime": mine.maxPacketLifeTime}


def use_for(aiortc: ModuleType, **settings) -> None:
    """Has peer connections use this library, with these `Settings`, that have their first data channel from now on. Those that are made from now on
    offer it by RFC 8841: in answer to aiortc's older form Chromium doesn't say the size of its largest message."""
    transport = type("SctpTransport", (SctpTransport,), {"settings": Settings(**settings)})
    setattr(aiortc.rtcpeerconnection, "RTCSctpTransport", transport)
    setattr(aiortc, "RTCSctpTransport", transport)
    connection = aiortc.rtcpeerconnection.RTCPeerConnection
    begin = connection.__init__
    if hasattr(begin, "__wrapped__"):
        return

    @functools.wraps(begin)
    def begin_by_rfc_8841(self, *args, **options) -> None:
        begin(self, *args, **options)
        self._sctpLegacySdp = False

    connection.__init__ = begin_by_rfc_8841
