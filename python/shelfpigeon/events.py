# SPDX-License-Identifier: Apache-2.0
"""What a socket tells its owner, to be matched by class."""
from __future__ import annotations

from dataclasses import dataclass
from typing import TYPE_CHECKING, Union

from .names import ErrorKind, Kind, Refusal

if TYPE_CHECKING:
    from .channels import Channel


@dataclass(slots=True)
class Packet:
    """To be sent to the peer."""

    data: bytes


@dataclass(slots=True)
class Connected:
    """The association is there."""


@dataclass(slots=True)
class Closed:
    """The association has ended, as one of the ends asked for."""


@dataclass(slots=True)
class Restarted:
    """The peer began anew: messages may be lost, and Connected follows. With avoid_stalls what waited is given up."""


@dataclass(slots=True)
class Aborted:
    """The association has ended. `cause` is the code that the peer gave; 12 is a close by its user, or too many
    retransmissions there."""

    error: ErrorKind
    cause: int
    text: str


@dataclass(slots=True)
class Reported:
    """An error by which nothing ends."""

    error: ErrorKind
    cause: int
    text: str


@dataclass(slots=True)
class TotalBufferedAmountLow:
    """More may be sent."""


@dataclass(slots=True)
class BufferedAmountLow:
    """More may be sent on this stream."""

    stream: int


@dataclass(slots=True)
class StreamsReset:
    """`kind` is one of STREAMS_RESET_FAILED, STREAMS_RESET_PERFORMED and INCOMING_STREAM_RESET, of which no stream means all."""

    kind: Kind
    streams: tuple[int, ...]


@dataclass(slots=True)
class Lifecycle:
    """What became of a message that was sent with this number."""

    kind: Kind
    lifecycle: int


@dataclass(slots=True)
class ChannelOpened:
    """The peer has opened the channel, or has answered, by a message at least. It may come before Connected."""

    channel: Channel


@dataclass(slots=True)
class ChannelMessage:
    """A message came: text or bytes."""

    channel: Channel
    data: Union[str, bytes]


@dataclass(slots=True)
class ChannelBufferedAmountLow:
    """More may be sent on the channel."""

    channel: Channel


@dataclass(slots=True)
class ChannelClosed:
    """Whoever closed it. What comes on it afterwards, where its reset was refused, is a ChannelRefused."""

    channel: Channel


@dataclass(slots=True)
class ChannelRefused:
    """Something that came was not taken. Nothing is to be done, but to log it."""

    stream: int
    refusal: Refusal


SocketEvent = Union[Packet, Connected, Closed, Restarted, Aborted, Reported, TotalBufferedAmountLow, BufferedAmountLow, StreamsReset, Lifecycle]
# (a socket with channels hands out no StreamsReset: channels take it)
ChannelsEvent = Union[SocketEvent, ChannelOpened, ChannelMessage, ChannelBufferedAmountLow, ChannelClosed, ChannelRefused]
