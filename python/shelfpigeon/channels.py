# SPDX-License-Identifier: Apache-2.0
"""Data channels over a socket (RFC 8831, RFC 8832)."""
from __future__ import annotations

from collections import deque
from collections.abc import Iterator
from ctypes import byref, c_size_t, c_uint32, create_string_buffer, sizeof
from typing import Optional, Union

from .events import ChannelBufferedAmountLow, ChannelClosed, ChannelMessage, ChannelOpened, ChannelRefused, ChannelsEvent
from .declarations import ChannelOptionsStruct, ChannelsOptionsStruct, OptionsStruct, Statistics, bytes_of, check
from .names import Answer, ChannelState, Kind, NoChannel, Refusal, Role, SendFlags, Text
from .declarations import text as text_of
from .sockets import End


class Channel:
    """A data channel. Its number, `id`, is free for another one once it is closed, unless its reset was refused. One that has ended before its
    owner took the event of its opening has no label."""

    def __init__(self, channels: Channels, id: int):
        self._channels = channels
        self.id = id
        options = ChannelOptionsStruct(priority=256)
        called = channels._library
        answer = called.pigeon_channel_get_options_sized(channels._at, id, byref(options), sizeof(options))
        if answer != Answer.NO_CHANNEL:
            check(answer)
        flags = SendFlags(options.flags)
        self.label: str = channels._text(called.pigeon_channel_label, id)
        self.protocol: str = channels._text(called.pigeon_channel_protocol, id)
        self.ordered: bool = SendFlags.UNORDERED not in flags
        self.max_retransmissions: Optional[int] = options.max_retransmissions if SendFlags.MAX_RETRANSMISSIONS in flags else None
        self.lifetime: Optional[int] = options.lifetime if SendFlags.LIFETIME in flags else None
        self.priority: int = options.priority

    def __repr__(self) -> str:
        return f"<Channel {self.id} {self.label!r}>"

    @property
    def is_closed(self) -> bool:
        return self._channels._channels.get(self.id) is not self

    @property
    def state(self) -> ChannelState:
        """CONNECTING until its opener is told that the peer has it, CLOSING from the close of either end on. Events that wait may be behind it."""
        end, state = self._channels, c_uint32(ChannelState.CLOSED)
        if not self.is_closed:
            answer = end._library.pigeon_channel_state(end._at, self.id, byref(state))
            if answer != Answer.NO_CHANNEL:
                check(answer)
        return ChannelState(state.value)

    def _open(self) -> Channels:
        if self.is_closed:
            raise NoChannel(Answer.NO_CHANNEL, text_of(Text.ANSWER, Answer.NO_CHANNEL))
        return self._channels

    def send(self, message: Union[str, bytes]) -> None:
        """Sends text or bytes. The time is to be advanced first. QueueFull, MessageTooLarge, NoChannel: it isn't sent."""
        end = self._open()
        if isinstance(message, str):
            kind, payload = Kind.CHANNEL_TEXT, message.encode()
        else:
            kind, payload = Kind.CHANNEL_BINARY, bytes_of(message)
        check(end._library.pigeon_channel_send(end._at, self.id, kind, payload, len(payload)))

    def close(self) -> None:
        """Closes the channel, behind what was sent and not before there is an association. The event ChannelClosed says when that is done."""
        end = self._open()
        check(end._library.pigeon_channel_close(end._at, self.id))

    @property
    def buffered_amount(self) -> int:
        """The bytes that wait to be sent, those of its opening too: 12, its label and its protocol."""
        return 0 if self.is_closed else self._channels.buffered_amount(self.id)

    @property
    def buffered_amount_low_threshold(self) -> int:
        """At which amount an event says that more may be sent."""
        return self._open().buffered_amount_low_threshold(self.id)

    @buffered_amount_low_threshold.setter
    def buffered_amount_low_threshold(self, size: int) -> None:
        self._open().set_buffered_amount_low_threshold(self.id, size)

    @property
    def statistics(self) -> Statistics:
        """What it has sent and received."""
        end, statistics = self._open(), Statistics()
        check(end._library.pigeon_channel_get_statistics_sized(end._at, self.id, byref(statistics), sizeof(statistics)))
        return statistics


class Channels(End):
    """A socket with data channels.

    A turn: `advance_time`; `handle_input` for each packet that came, and what is opened, sent and closed; all `events`; `next_given_up` until it
    answers None; `poll_timeout`. What isn't taken piles up.

    `max_message_size` is one's own a=max-message-size, `peer_max_message_size` the peer's, 65,536 where it says none: at 0 any that the options'
    max_message_size allows is sent. At an own 0 only empty messages are taken. `max_kept_bytes` is the most bytes of labels, protocols and unfinished
    messages that channels keep: an opening by the peer beyond it is refused, by `Refusal.NO_ROOM`, and a part of a message beyond it drops its message,
    by `Refusal.TOO_LONG`. What this end opens isn't refused for it."""

    def __init__(
        self,
        role: Role,
        options: Optional[OptionsStruct] = None,
        *,
        seed: Optional[bytes] = None,
        max_message_size: int = 262144,
        peer_max_message_size: int = 65536,
        max_buffered_amount: int = 16777216,
        max_kept_bytes: int = 16777216,
    ):
        super().__init__(options, seed=seed)
        self._channels: dict[int, Channel] = {}
        self._taken: deque[ChannelsEvent] = deque()
        self.role = Role(role)
        given = ChannelsOptionsStruct(
            role=role,
            max_message_size=max_message_size,
            peer_max_message_size=peer_max_message_size,
            max_buffered_amount=max_buffered_amount,
            max_kept_bytes=max_kept_bytes,
        )
        check(self._library.pigeon_channels_start_sized(self._at, byref(given), sizeof(given)))

    def __iter__(self) -> Iterator[Channel]:
        """The channels that there are."""
        return iter(list(self._channels.values()))

    def open(
        self,
        label: str,
        protocol: str = "",
        *,
        ordered: bool = True,
        max_retransmissions: Optional[int] = None,
        lifetime: Optional[int] = None,
        priority: int = 256,
    ) -> Channel:
        """Opens a channel, by which messages may be sent at once. `lifetime` is in milliseconds. `priority`, 128 to 1,024 (RFC 8831 section 6.4), is
        told to the peer, and its stream has it once all events were taken; 0 leaves the stream's own. The time is to be advanced first."""
        self._take_ahead()
        options, number = channel_options(ordered, max_retransmissions, lifetime, priority), c_uint32()
        name, spoken = label.encode(), protocol.encode()
        check(
            self._library.pigeon_channel_open_sized(
                self._at, byref(options), sizeof(options), name, len(name), spoken, len(spoken), byref(number)
            )
        )
        return self._known(number.value)

    def negotiate(
        self,
        id: int,
        label: str = "",
        protocol: str = "",
        *,
        ordered: bool = True,
        max_retransmissions: Optional[int] = None,
        lifetime: Optional[int] = None,
        priority: int = 256,
    ) -> Channel:
        """A channel that both ends have agreed on; it is open at once. Its stream has `priority` as by `open`; whether the association
        has it isn't looked at."""
        self._take_ahead()
        options = channel_options(ordered, max_retransmissions, lifetime, priority)
        name, spoken = label.encode(), protocol.encode()
        called = self._library.pigeon_channel_negotiate_sized
        self._call(called, id, byref(options), sizeof(options), name, len(name), spoken, len(spoken))
        return self._known(id)

    def handle_input(self, packet: bytes) -> None:
        """Takes the bytes of a packet that came."""
        check(self._library.pigeon_channels_handle_input(self._at, packet, len(packet)))

    def next_event(self) -> Optional[ChannelsEvent]:
        """Takes the event that comes next, of the socket or of its channels, or None."""
        return self._taken.popleft() if self._taken else self._taken_now()

    def _take_ahead(self) -> None:
        """Keeps the events that there are for their owner: before a number is another channel's the end of its former one is taken."""
        while (event := self._taken_now()) is not None:
            self._taken.append(event)

    def _taken_now(self) -> Optional[ChannelsEvent]:
        kind = self._next_kind(self._library.pigeon_channels_borrow_event_sized, byref(self._lent))
        if kind is None:
            return None
        stream, error = self._event.stream, self._event.error
        if kind == Kind.BUFFERED_AMOUNT_LOW and stream in self._channels:
            return ChannelBufferedAmountLow(self._channels[stream])
        if kind in (Kind.CHANNEL_OPENED, Kind.CHANNEL_TEXT, Kind.CHANNEL_BINARY) and self._is_behind_its_end(kind, stream):
            return ChannelRefused(stream, Refusal.NO_CHANNEL)
        if kind == Kind.CHANNEL_TEXT:
            return ChannelMessage(self._channels[stream], self._bytes().decode(errors="replace"))
        if kind == Kind.CHANNEL_BINARY:
            return ChannelMessage(self._channels[stream], self._bytes())
        if kind == Kind.CHANNEL_OPENED:
            return ChannelOpened(self._known(stream))
        if kind == Kind.CHANNEL_CLOSED:
            channel = self._known(stream)
            del self._channels[stream]
            return ChannelClosed(channel)
        if kind == Kind.CHANNEL_REFUSED:
            return ChannelRefused(stream, Refusal(error))
        return self._told(kind)

    def events(self) -> Iterator[ChannelsEvent]:
        """Takes all events, also those that come meanwhile."""
        while (event := self.next_event()) is not None:
            yield event

    def _is_behind_its_end(self, kind: int, id: int) -> bool:
        """Whether an event is of a channel that was told as closed: where its reset was refused some may follow. An opening that isn't known is the
        peer's where the stream is the peer's to open."""
        return id not in self._channels and (kind != Kind.CHANNEL_OPENED or id % 2 == self.role)

    def _known(self, id: int) -> Channel:
        if id not in self._channels:
            self._channels[id] = Channel(self, id)
        return self._channels[id]

    def _text(self, function, id: int) -> str:
        needed = c_size_t(256)
        while True:
            buffer = create_string_buffer(needed.value + 1)
            answer = function(self._at, id, byref(needed), buffer, len(buffer))
            if answer == Answer.NO_CHANNEL:
                return ""
            if answer != Answer.SHORT_BUFFER:
                check(answer)
                return buffer.raw[: needed.value].decode(errors="replace")


def channel_options(ordered: bool, max_retransmissions: Optional[int], lifetime: Optional[int], priority: int) -> ChannelOptionsStruct:
    flags = SendFlags(0) if ordered else SendFlags.UNORDERED
    if max_retransmissions is not None:
        flags |= SendFlags.MAX_RETRANSMISSIONS
    if lifetime is not None:
        flags |= SendFlags.LIFETIME
    return ChannelOptionsStruct(flags=flags, max_retransmissions=max_retransmissions or 0, lifetime=lifetime or 0, priority=priority)
