# SPDX-License-Identifier: Apache-2.0
"""SCTP as data channels have it, without system calls: packets and moments go in, events come out.

`Channels` is a socket with data channels, `Socket` one with streams; `aio` drives the first by asyncio, and `use_for(aiortc)` has aiortc speak by
it. include/shelfpigeon.h of the repository says at each call what it does."""
from __future__ import annotations

from . import aio, events
from .channels import Channel, Channels
from .declarations import Metrics, Statistics, library, text
from .names import (
    Answer,
    Cause,
    ChannelState,
    Checksum,
    ErrorKind,
    InvalidArgument,
    Kind,
    MessageTooLarge,
    NoChannel,
    NoRoom,
    OptionFlags,
    Peer,
    PigeonError,
    QueueFull,
    Readiness,
    Refusal,
    Role,
    SocketFailed,
    State,
    Text,
    ZeroChecksum,
)
from .sockets import GivenUp, Message, Options, Socket, describe_packet

__version__ = "0.1.0"


def use_for(aiortc, **settings) -> None:
    """Has aiortc's peer connections that have their first data channel from now on speak by this library's SCTP: `shelfpigeon.use_for(aiortc)`,
    before they are made. The settings are those of `shelfpigeon.for_aiortc.Settings`."""
    from .for_aiortc import use_for

    use_for(aiortc, **settings)


__all__ = [
    "Answer", "Cause", "Channel", "ChannelState", "Channels", "Checksum", "ErrorKind", "GivenUp", "InvalidArgument", "Kind", "Message",
    "MessageTooLarge", "Metrics", "NoChannel", "NoRoom", "OptionFlags", "Options", "Peer", "PigeonError", "QueueFull", "Readiness", "Refusal", "Role",
    "Socket", "SocketFailed", "State", "Statistics", "Text", "ZeroChecksum", "aio", "describe_packet", "events", "library", "text", "use_for",
]  # fmt: skip
