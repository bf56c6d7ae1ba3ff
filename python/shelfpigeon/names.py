# SPDX-License-Identifier: Apache-2.0
"""The numbers of include/shelfpigeon.h by their names, and the errors that calls raise."""
from __future__ import annotations

import enum


class Told(enum.IntEnum):
    """What the library tells. A number that only a later 0.1 has is told by its value."""

    @classmethod
    def _missing_(cls, value: object) -> Told | None:
        if not isinstance(value, int):
            return None
        told = int.__new__(cls, value)
        told._name_, told._value_ = f"UNKNOWN_{value}", value
        return told


class Answer(Told):
    """What calls answer: all but OK, NOTHING and SOME_REFUSED are raised, as `PigeonError`."""

    OK = 0
    MEMORY = 1
    FAILED = 2
    NO_SOCKET = 3
    IN_USE = 4
    INVALID_OPTIONS = 5
    INVALID_STREAM = 6
    INVALID_ARGUMENT = 7
    NOTHING = 8
    SHORT_BUFFER = 9
    EMPTY_PAYLOAD = 10
    MESSAGE_TOO_LARGE = 11
    SHUTTING_DOWN = 12
    QUEUE_FULL = 13
    NO_ASSOCIATION = 14
    NOT_SUPPORTED = 15
    NOT_READY = 16
    NO_ROOM = 17
    SOME_REFUSED = 18
    NOT_CLOSED = 19
    INVALID_STATE = 20
    INVALID_SIZE = 21
    NO_PACKET = 22
    NO_CHANNELS = 23
    HAS_CHANNELS = 24
    NO_CHANNEL = 25
    CHANNEL_CLOSING = 26
    STREAM_IN_USE = 27
    NO_FREE_STREAM = 28
    TEXT_TOO_LONG = 29
    NOT_UTF8 = 30
    NOT_TAKEN = 31


class Text(enum.IntEnum):
    """Which kind of number `shelfpigeon.text` is asked for."""

    ANSWER = 0
    EVENT = 1
    ERROR = 2
    STATE = 3
    OPTION = 4
    REFUSAL = 5


class Checksum(enum.IntEnum):
    """How packets are summed: `Options.checksum`."""

    CRC32C = 0
    ZERO = 1


class ZeroChecksum(enum.IntEnum):
    """What finds damage in the place of the checksum (RFC 9653): `Options.zero_checksum_method`."""

    NONE = 0
    DTLS = 1


class OptionFlags(enum.IntFlag):
    """`Options.flags`. With `AVOID_STALLS`, which `Options.for_webrtc()` has, a socket does what the RFCs ask where dcsctp stands still or loses."""

    PARTIAL_RELIABILITY = 1
    MESSAGE_INTERLEAVING = 2
    NO_CHECKSUM_VERIFICATION = 4
    HANDOVER_WITH_OUTSTANDING_DATA = 8
    HEARTBEAT_INTERVAL_INCLUDE_RTT = 16
    AVOID_STALLS = 32


class State(Told):
    """How far the association is."""

    CLOSED = 0
    CONNECTING = 1
    CONNECTED = 2
    CLOSING = 3


class ChannelState(Told):
    """What a channel is, in the words of W3C's `RTCDataChannel.readyState`."""

    CLOSED = 0
    CONNECTING = 1
    OPEN = 2
    CLOSING = 3


class Peer(Told):
    """Whose implementation the peer is, as far as its cookie tells."""

    UNKNOWN = 0
    DCSCTP_RS = 1
    DCSCTP_CC = 2
    USRSCTP = 3
    OTHER = 4


class Readiness(enum.IntFlag):
    """What stands in the way of a handover."""

    READY = 0
    WRONG_CONNECTION_STATE = 1
    SEND_QUEUE_NOT_EMPTY = 2
    PENDING_STREAM_RESET_REQUEST = 4
    DATA_TRACKER_TSN_BLOCKS_PENDING = 8
    PENDING_STREAM_RESET = 16
    STREAM_RESET_DEFERRED = 64
    STREAM_HAS_UNASSEMBLED_CHUNKS = 128
    RETRANSMISSION_QUEUE_OUTSTANDING_DATA = 512
    RETRANSMISSION_QUEUE_FAST_RECOVERY = 1024
    RETRANSMISSION_QUEUE_NOT_EMPTY = 2048


class SendFlags(enum.IntFlag):
    """How a message is sent, or those of a channel are."""

    UNORDERED = 1
    LIFETIME = 2
    MAX_RETRANSMISSIONS = 4


class Cause(Told):
    """Why a message was given up."""

    LIFETIME = 0
    RETRANSMISSIONS = 1
    RESET = 2
    ENDED = 3


class Kind(enum.IntEnum):
    """Kinds of events."""

    SEND_PACKET = 0
    ON_CONNECTED = 1
    ON_CLOSED = 2
    ON_CONNECTION_RESTARTED = 3
    ON_ABORTED = 4
    ON_ERROR = 5
    BUFFERED_AMOUNT_LOW = 6
    TOTAL_BUFFERED_AMOUNT_LOW = 7
    STREAMS_RESET_FAILED = 8
    STREAMS_RESET_PERFORMED = 9
    INCOMING_STREAM_RESET = 10
    LIFECYCLE_FULLY_SENT = 11
    LIFECYCLE_MAYBE_EXPIRED = 12
    LIFECYCLE_EXPIRED = 13
    LIFECYCLE_DELIVERED = 14
    LIFECYCLE_END = 15
    CHANNEL_OPENED = 16
    CHANNEL_TEXT = 17
    CHANNEL_BINARY = 18
    CHANNEL_CLOSED = 19
    CHANNEL_REFUSED = 20


class ErrorKind(Told):
    """Of what kind the error of an event is."""

    TOO_MANY_RETRIES = 1
    NOT_CONNECTED = 2
    PARSE_FAILED = 3
    WRONG_SEQUENCE = 4
    PEER_REPORTED = 5
    PROTOCOL_VIOLATION = 6
    RESOURCE_EXHAUSTION = 7
    UNSUPPORTED_OPERATION = 8


class Role(enum.IntEnum):
    """Who opens which channels: the client of DTLS those with even numbers, its server those with odd ones."""

    CLIENT = 0
    SERVER = 1


class Refusal(Told):
    """Why something that came on a channel was not taken."""

    BAD_MESSAGE = 1
    PARITY = 2
    STREAM = 3
    IN_USE = 4
    NO_CHANNEL = 5
    PAYLOAD = 6
    TOO_LONG = 7
    NO_ROOM = 8


class PigeonError(Exception):
    """A call answered that it did nothing, or not all: `answer` says why."""

    def __init__(self, answer: int, message: str):
        super().__init__(message)
        self.answer = Answer(answer)


class SocketFailed(PigeonError):
    """There was too little memory: the socket takes no more calls, and is to be freed."""


class NoRoom(PigeonError, MemoryError):
    """There was too little memory to begin with: but by `handover` nothing changed."""


class InvalidArgument(PigeonError, ValueError):
    """Something that was handed in is out of its bounds."""


class MessageTooLarge(InvalidArgument):
    """The message is longer than the peer, or the socket, takes."""


class QueueFull(PigeonError):
    """Too much waits to be sent: go on when the buffered amount is low. Of a channel also: the queue of all streams is full, the socket shuts down, or
    its max_message_size is exceeded."""


class NoChannel(PigeonError):
    """The channel is closed, or being closed."""


RAISED = {
    Answer.MEMORY: SocketFailed,
    Answer.FAILED: SocketFailed,
    Answer.INVALID_OPTIONS: InvalidArgument,
    Answer.INVALID_STREAM: InvalidArgument,
    Answer.INVALID_ARGUMENT: InvalidArgument,
    Answer.EMPTY_PAYLOAD: InvalidArgument,
    Answer.MESSAGE_TOO_LARGE: MessageTooLarge,
    Answer.QUEUE_FULL: QueueFull,
    Answer.NO_ROOM: NoRoom,
    Answer.INVALID_STATE: InvalidArgument,
    Answer.INVALID_SIZE: InvalidArgument,
    Answer.NO_PACKET: InvalidArgument,
    Answer.NO_CHANNEL: NoChannel,
    Answer.CHANNEL_CLOSING: NoChannel,
    Answer.STREAM_IN_USE: InvalidArgument,
    Answer.TEXT_TOO_LONG: InvalidArgument,
    Answer.NOT_UTF8: InvalidArgument,
    Answer.NOT_TAKEN: QueueFull,
}
