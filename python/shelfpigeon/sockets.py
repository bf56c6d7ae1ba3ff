# SPDX-License-Identifier: Apache-2.0
"""A socket: packets, moments and messages go in, events come out. Spans and moments are in nanoseconds."""
from __future__ import annotations

import ctypes
import os
import struct
from collections.abc import Iterator, Sequence
from ctypes import byref, c_size_t, c_uint16, c_uint32, c_uint64, c_void_p, create_string_buffer, sizeof, string_at
from typing import NamedTuple, Optional, TypeVar

from .events import (
    Aborted,
    BufferedAmountLow,
    Closed,
    Connected,
    Lifecycle,
    Packet,
    Reported,
    Restarted,
    SocketEvent,
    StreamsReset,
    TotalBufferedAmountLow,
)
from .declarations import (
    SEED_SIZE,
    EventStruct,
    GivenUpStruct,
    Handle,
    MessageStruct,
    Metrics,
    OptionsStruct,
    OutgoingStruct,
    SendOptionsStruct,
    bytes_of,
    check,
    fitting,
    library,
    text,
)
from .names import Answer, Cause, ErrorKind, InvalidArgument, Kind, Readiness, SendFlags, State, Text

NEVER = 2**64 - 1
LAST_KIND = max(Kind)
AnEnd = TypeVar("AnEnd", bound="End")


class Options(OptionsStruct):
    """What a socket is made with: `Options.default(..)` or `Options.for_webrtc(..)`, with what is to be another value. The header says what
    each field means."""

    __slots__ = ()

    @classmethod
    def default(cls, **fields: int) -> Options:
        """The options of dcsctp: `OptionFlags.AVOID_STALLS` isn't set."""
        return cls()._written(library().pigeon_default_options_sized, fields)

    @classmethod
    def for_webrtc(cls, **fields: int) -> Options:
        """The options of data channels over DTLS, with `OptionFlags.AVOID_STALLS`. Those of a socket where nothing else is said."""
        return cls()._written(library().pigeon_options_for_webrtc_sized, fields)

    def _written(self, function, fields: dict[str, int]) -> Options:
        check(function(byref(self), sizeof(self)))
        for name, value in self.known(fields).items():
            setattr(self, name, value)
        return self

    def invalid_field(self) -> Optional[str]:
        """The name of the first field that is out of its bounds, if any is."""
        return invalid_field(self)


def invalid_field(options: OptionsStruct) -> Optional[str]:
    place = c_uint32()
    answer = library().pigeon_check_options_sized(byref(options), sizeof(options), byref(place))
    if answer != Answer.INVALID_OPTIONS:
        check(answer)
        return None
    return text(Text.OPTION, place.value)


class Message(NamedTuple):
    """A message that came."""

    stream: int
    ppid: int
    data: bytes


class GivenUp(NamedTuple):
    """A message that was given up: its place in the order of acceptance, from 0, why, and, of RETRANSMISSIONS, after how many."""

    number: int
    cause: Cause
    retransmissions: int


class End:
    """What sockets with and without channels have in common. A context manager, which frees it. One is in one call at a time: ctypes lets other
    threads run meanwhile, so whoever shares it between threads has a lock around each call, and around whole turns of `events`."""

    def __init__(self, options: Optional[OptionsStruct] = None, *, seed: Optional[bytes] = None):
        self._library = library()
        self._handle = Handle()
        self._at = byref(self._handle)
        self._event = EventStruct()
        self._lent = c_void_p()
        options = Options.for_webrtc() if options is None else options
        seed = os.urandom(SEED_SIZE) if seed is None else bytes_of(seed)
        answer = self._library.pigeon_new_sized(self._at, byref(options), sizeof(options), seed, len(seed))
        if answer == Answer.INVALID_OPTIONS:
            raise InvalidArgument(answer, f"{text(Text.ANSWER, answer)}: {invalid_field(options)}")
        check(answer)

    def __enter__(self: AnEnd) -> AnEnd:
        return self

    def __exit__(self, *_) -> None:
        self.free()

    def __del__(self):
        if hasattr(self, "_at"):
            self.free()

    def free(self) -> None:
        """Lets the socket go; the peer gets nothing. It may be called again."""
        self._library.pigeon_free(self._at)

    def _call(self, function, *arguments) -> None:
        """Calls a function by numbers of the owner. Raises what is not OK."""
        check(function(self._at, *map(fitting, function.argtypes[1:], arguments)))

    def _read(self, function, kind, *arguments):
        value = kind()
        self._call(function, *arguments, byref(value))
        return value.value

    def advance_time(self, nanos: int) -> None:
        """Advances the time, since the socket was made, and expires timers. It comes first: the other calls go by it."""
        self._call(self._library.pigeon_advance_time, nanos)

    def poll_timeout(self) -> Optional[int]:
        """By which moment the time is to be advanced next, in nanoseconds since the socket was made; None where nothing is due. It comes last."""
        nanos = self._read(self._library.pigeon_poll_timeout, c_uint64)
        return None if nanos == NEVER else nanos

    def connect(self) -> None:
        """Opens an association, where the socket is closed."""
        check(self._library.pigeon_connect(self._at))

    def shutdown(self) -> None:
        """Ends the association once nothing is in flight. Without `OptionFlags.AVOID_STALLS` what waits isn't waited for: see `is_at_rest`. To be
        called once the association is there."""
        check(self._library.pigeon_shutdown(self._at))

    def close(self) -> None:
        """Ends the association at once, with an ABORT to the peer unless its INIT ACK is still waited for."""
        check(self._library.pigeon_close(self._at))

    @property
    def state(self) -> State:
        return State(self._read(self._library.pigeon_state, c_uint32))

    @property
    def clock(self) -> int:
        """The moment to which the time was advanced last."""
        return self._read(self._library.pigeon_clock, c_uint64)

    @property
    def is_at_rest(self) -> bool:
        """Whether nothing is queued and nothing that was sent is kept: all is acknowledged, or its association is over."""
        return bool(self._read(self._library.pigeon_is_at_rest, c_uint32))

    def refuses(self, packet: bytes) -> bool:
        """Whether these bytes are no packet, not one for this association, or one of more than 4 SACKs and COOKIE ECHOs."""
        return bool(self._read(self._library.pigeon_refuses, c_uint32, packet, len(packet)))

    @property
    def options(self) -> Options:
        """The options that the socket was made with, and the size of messages last set."""
        options = Options()
        check(self._library.pigeon_get_options_sized(self._at, byref(options), sizeof(options)))
        return options

    def set_max_message_size(self, size: int) -> None:
        """Sets the most bytes of a message that is sent; at 0 each is refused. With `OptionFlags.AVOID_STALLS` the peer may fill as much beyond the
        window."""
        self._call(self._library.pigeon_set_max_message_size, size)

    def buffered_amount(self, stream: int) -> int:
        """The bytes of a stream that wait to be sent."""
        return self._read(self._library.pigeon_buffered_amount, c_size_t, stream)

    def buffered_amount_low_threshold(self, stream: int) -> int:
        return self._read(self._library.pigeon_buffered_amount_low_threshold, c_size_t, stream)

    def set_buffered_amount_low_threshold(self, stream: int, size: int) -> None:
        """Sets at which amount an event says that more may be sent. Where messages are given up it may not come; with `AVOID_STALLS` only by a reset
        or an end."""
        self._call(self._library.pigeon_set_buffered_amount_low_threshold, stream, size)

    @property
    def send_queue_room(self) -> int:
        """How many bytes more the send queue takes, of all streams."""
        return self._read(self._library.pigeon_send_queue_room, c_size_t)

    def metrics(self) -> Optional[Metrics]:
        """What is counted, or None where there is no association."""
        metrics = Metrics()
        answer = self._library.pigeon_get_metrics_sized(self._at, byref(metrics), sizeof(metrics))
        if answer == Answer.NOTHING:
            return None
        check(answer)
        return metrics

    def stream_priority(self, stream: int) -> int:
        return self._read(self._library.pigeon_stream_priority, c_uint16, stream)

    def set_stream_priority(self, stream: int, priority: int) -> None:
        """Sets by what a stream is weighed where messages are interleaved (RFC 8260)."""
        self._call(self._library.pigeon_set_stream_priority, stream, priority)

    def next_given_up(self) -> Optional[GivenUp]:
        """Takes the record of the message that was given up first, or None. Those that aren't taken pile up."""
        record = GivenUpStruct()
        answer = self._library.pigeon_next_given_up(self._at, byref(record))
        if answer == Answer.NOTHING:
            return None
        check(answer)
        return GivenUp(record.number, Cause(record.cause), record.retransmissions)

    def _next_kind(self, function, *place) -> Optional[int]:
        """Takes the next event into _event, its bytes by `place`, and answers its kind. One that only a later library has is passed over."""
        event = self._event
        while (answer := function(self._at, byref(event), sizeof(event), *place)) != Answer.NOTHING:
            check(answer)
            if event.kind <= LAST_KIND:
                return event.kind
        return None

    def _bytes(self) -> bytes:
        return string_at(self._lent, self._event.length) if self._event.length else b""

    def _told(self, kind: int) -> SocketEvent:
        event = self._event
        if kind == Kind.SEND_PACKET:
            return Packet(self._bytes())
        if kind in PLAIN:
            return PLAIN[kind]()
        if kind == Kind.BUFFERED_AMOUNT_LOW:
            return BufferedAmountLow(event.stream)
        if kind in (Kind.ON_ABORTED, Kind.ON_ERROR):
            error, cause, said = ErrorKind(event.error), event.cause, self._bytes().decode(errors="replace")
            return Aborted(error, cause, said) if kind == Kind.ON_ABORTED else Reported(error, cause, said)
        if kind in (Kind.STREAMS_RESET_FAILED, Kind.STREAMS_RESET_PERFORMED, Kind.INCOMING_STREAM_RESET):
            return StreamsReset(Kind(kind), struct.unpack(f"={event.length // 2}H", self._bytes()))
        return Lifecycle(Kind(kind), event.lifecycle)


PLAIN: dict[int, type[Connected | Closed | Restarted | TotalBufferedAmountLow]] = {
    Kind.ON_CONNECTED: Connected,
    Kind.ON_CLOSED: Closed,
    Kind.ON_CONNECTION_RESTARTED: Restarted,
    Kind.TOTAL_BUFFERED_AMOUNT_LOW: TotalBufferedAmountLow,
}


class Socket(End):
    """A socket whose messages its owner sends and takes by streams. `Channels` is one with data channels.

    A turn: `advance_time`; for each packet that came `handle_input`, then all `messages`, since the next packet may end the association, and what is
    ready goes with it; what is to be sent; all `events`; `next_given_up` until it answers None; `poll_timeout`. What isn't taken piles up."""

    def handle_input(self, packet: bytes) -> None:
        """Takes the bytes of a packet that came."""
        check(self._library.pigeon_handle_input(self._at, packet, len(packet)))

    def next_event(self) -> Optional[SocketEvent]:
        """Takes the event that was emitted first, or None."""
        kind = self._next_kind(self._library.pigeon_borrow_event_sized, byref(self._lent))
        return None if kind is None else self._told(kind)

    def events(self) -> Iterator[SocketEvent]:
        """Takes all events, also those that come meanwhile."""
        while (event := self.next_event()) is not None:
            yield event

    def poll_event(self, size: int = 65536) -> Optional[SocketEvent]:
        """As `next_event`, by a buffer of this size. PigeonError: what doesn't fit stays, and holds back all behind it."""
        buffer = create_string_buffer(size)
        kind = self._next_kind(self._library.pigeon_poll_event_sized, buffer, size)
        self._lent.value = ctypes.addressof(buffer)
        return None if kind is None else self._told(kind)

    def next_message(self) -> Optional[Message]:
        """Takes the message that was ready first, or None."""
        message, lent = MessageStruct(), c_void_p()
        answer = self._library.pigeon_borrow_message(self._at, byref(message), byref(lent))
        if answer == Answer.NOTHING:
            return None
        check(answer)
        return Message(message.stream, message.ppid, string_at(lent, message.length))

    def messages(self) -> Iterator[Message]:
        """Takes all messages that are ready."""
        while (message := self.next_message()) is not None:
            yield message

    @property
    def messages_ready_count(self) -> int:
        return self._read(self._library.pigeon_messages_ready_count, c_size_t)

    def send(
        self,
        stream: int,
        ppid: int,
        payload: bytes,
        *,
        unordered: bool = False,
        max_retransmissions: Optional[int] = None,
        lifetime: Optional[int] = None,
        lifecycle: int = 0,
    ) -> None:
        """Queues a message, and sends as much as may be sent."""
        options = send_options(unordered, max_retransmissions, lifetime, lifecycle)
        self._call(self._library.pigeon_send_sized, stream, ppid, payload, len(payload), byref(options), sizeof(options))

    def send_many(
        self,
        messages: Sequence[tuple[int, int, bytes]],
        *,
        unordered: bool = False,
        max_retransmissions: Optional[int] = None,
        lifetime: Optional[int] = None,
        lifecycle: int = 0,
    ) -> list[Answer]:
        """Queues several messages, each a stream, a payload protocol identifier and bytes. Says what became of each. All have the one lifecycle."""
        options, count = send_options(unordered, max_retransmissions, lifetime, lifecycle), len(messages)
        given = (OutgoingStruct * max(count, 1))(*[outgoing(*it) for it in messages])
        answers = (c_uint32 * max(count, 1))()
        answer = self._library.pigeon_send_many_sized(self._at, given, count, byref(options), sizeof(options), answers, count)
        if answer != Answer.SOME_REFUSED:
            check(answer)
        return [Answer(it) for it in answers[:count]]

    def reset_stream(self, stream: int) -> None:
        """Resets a stream; messages there of which nothing is sent are dropped."""
        self._call(self._library.pigeon_reset_stream, stream)

    def reset_streams(self, streams: Sequence[int]) -> None:
        """Resets several streams."""
        given = [fitting(c_uint16, it) for it in streams]
        check(self._library.pigeon_reset_streams(self._at, (c_uint16 * max(len(given), 1))(*given), len(given)))

    @property
    def handover_readiness(self) -> Readiness:
        """What stands in the way of a handover."""
        return Readiness(self._read(self._library.pigeon_handover_readiness, c_uint32))

    def handover(self) -> bytes:
        """Hands out the record of the socket, which closes and is to be freed. What is ready is to be taken before."""
        needed = c_size_t(4096)
        while True:
            buffer = create_string_buffer(max(needed.value, 1))
            answer = self._library.pigeon_handover(self._at, byref(needed), buffer, len(buffer))
            if answer != Answer.SHORT_BUFFER:
                check(answer)
                return buffer.raw[: needed.value]

    def restore(self, record: bytes) -> None:
        """Goes on as a record says, in a closed socket with the same options."""
        check(self._library.pigeon_restore(self._at, record, len(record)))


def outgoing(stream: int, ppid: int, data: bytes) -> OutgoingStruct:
    return OutgoingStruct(fitting(c_uint32, stream), fitting(c_uint32, ppid), data, len(data))


def send_options(unordered: bool, max_retransmissions: Optional[int], lifetime: Optional[int], lifecycle: int) -> SendOptionsStruct:
    flags = SendFlags.UNORDERED if unordered else SendFlags(0)
    if max_retransmissions is not None:
        flags |= SendFlags.MAX_RETRANSMISSIONS
    if lifetime is not None:
        flags |= SendFlags.LIFETIME
    return SendOptionsStruct(flags=flags, max_retransmissions=max_retransmissions or 0, lifetime=lifetime or 0, lifecycle=lifecycle)


def describe_packet(packet: bytes) -> str:
    """What the chunks of a packet say, one line each."""
    needed = c_size_t(4096)
    while True:
        buffer = create_string_buffer(max(needed.value, 1))
        answer = library().pigeon_describe_packet(packet, len(packet), byref(needed), buffer, len(buffer))
        if answer != Answer.SHORT_BUFFER:
            check(answer)
            return buffer.value.decode()
