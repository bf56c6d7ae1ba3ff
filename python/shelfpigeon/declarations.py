# SPDX-License-Identifier: Apache-2.0
"""The library: found, loaded, and each of its functions and structs declared as include/shelfpigeon.h has it."""
from __future__ import annotations

import ctypes
import functools
import os
from ctypes import POINTER, c_bool, c_char_p, c_int32, c_size_t, c_uint16, c_uint32, c_uint64, c_void_p
from pathlib import Path

from .names import RAISED, Answer, InvalidArgument, PigeonError, Text

NAME = "libshelfpigeon.so.0.1"
VERSION = (0, 1)
SEED_SIZE = 32
UNLIMITED = 2**32 - 1
UNSET = 2**64 - 1
NUMBERS = frozenset((c_bool, c_int32, c_uint16, c_uint32, c_uint64, c_size_t))


def fitting(kind, value):
    """What is handed to C. InvalidArgument: a number that its type doesn't hold, which ctypes would cut off."""
    if kind in NUMBERS and kind(value).value != value:
        raise InvalidArgument(Answer.INVALID_ARGUMENT, f"{value} is out of bounds")
    return value


def bytes_of(data) -> bytes:
    """The bytes of what has some. A number has none, of which `bytes` would make as many zero bytes."""
    return data if isinstance(data, bytes) else bytes(memoryview(data))


class Sized(ctypes.Structure):
    """A struct that begins by its size, which is set. Its other fields may be given by their names."""

    __slots__ = ()

    def __init__(self, **fields: int):
        super().__init__(**self.known(fields))
        self.size = ctypes.sizeof(self)

    @classmethod
    def kinds(cls) -> dict[str, type]:
        return {it[0]: it[1] for it in cls._fields_ if it[0] != "size"}

    @classmethod
    def known(cls, fields: dict[str, int]) -> dict[str, int]:
        kinds = cls.kinds()
        if unknown := fields.keys() - kinds.keys():
            raise TypeError(f"{cls.__name__} has no field {sorted(unknown)[0]!r}")
        for name, value in fields.items():
            fitting(kinds[name], value)
        return fields

    def __repr__(self) -> str:
        values = ", ".join(f"{it[0]}={getattr(self, it[0])}" for it in self._fields_ if it[0] != "size")
        return f"{type(self).__name__}({values})"


class Handle(ctypes.Structure):
    __slots__ = ()
    _fields_ = [("at", c_void_p)]


class OptionsStruct(Sized):
    __slots__ = ()
    _fields_ = [
        ("size", c_size_t),
        ("local_port", c_uint16),
        ("remote_port", c_uint16),
        ("announced_maximum_incoming_streams", c_uint16),
        ("announced_maximum_outgoing_streams", c_uint16),
        ("default_stream_priority", c_uint16),
        ("checksum", c_uint16),
        ("mtu", c_uint32),
        ("max_message_size", c_uint32),
        ("max_receiver_window_buffer_size", c_uint32),
        ("max_send_buffer_size", c_uint32),
        ("per_stream_send_queue_limit", c_uint32),
        ("total_buffered_amount_low_threshold", c_uint32),
        ("default_stream_buffered_amount_low_threshold", c_uint32),
        ("cwnd_mtus_initial", c_uint32),
        ("cwnd_mtus_min", c_uint32),
        ("avoid_fragmentation_cwnd_mtus", c_uint32),
        ("immediate_sack_under_cwnd_mtus", c_uint32),
        ("max_burst", c_int32),
        ("max_retransmissions", c_uint32),
        ("max_init_retransmits", c_uint32),
        ("zero_checksum_method", c_uint32),
        ("flags", c_uint32),
        ("max_held_fragments", c_uint32),
        ("rtt_max", c_uint64),
        ("rto_initial", c_uint64),
        ("rto_max", c_uint64),
        ("rto_min", c_uint64),
        ("t1_init_timeout", c_uint64),
        ("t1_cookie_timeout", c_uint64),
        ("t2_shutdown_timeout", c_uint64),
        ("max_timer_backoff_duration", c_uint64),
        ("heartbeat_interval", c_uint64),
        ("delayed_ack_max_timeout", c_uint64),
        ("min_rtt_variance", c_uint64),
    ]

    def __setattr__(self, name: str, value: int) -> None:
        super().__setattr__(name, fitting(self.kinds().get(name), value))


class Metrics(Sized):
    """What a socket counts; the header says it of each field."""

    __slots__ = ()
    _fields_ = [
        ("size", c_size_t),
        ("tx_packets_count", c_size_t),
        ("tx_messages_count", c_size_t),
        ("rtx_packets_count", c_size_t),
        ("rtx_bytes_count", c_uint64),
        ("cwnd_bytes", c_size_t),
        ("srtt", c_uint64),
        ("unack_data_count", c_size_t),
        ("rx_packets_count", c_size_t),
        ("rx_messages_count", c_size_t),
        ("peer_rwnd_bytes", c_uint32),
        ("peer_implementation", c_uint32),
        ("negotiated_maximum_incoming_streams", c_uint16),
        ("negotiated_maximum_outgoing_streams", c_uint16),
        ("uses_message_interleaving", c_bool),
        ("uses_zero_checksum", c_bool),
    ]


class SendOptionsStruct(Sized):
    __slots__ = ()
    _fields_ = [
        ("size", c_size_t),
        ("flags", c_uint32),
        ("max_retransmissions", c_uint32),
        ("lifetime", c_uint64),
        ("lifecycle", c_uint64),
    ]


class OutgoingStruct(ctypes.Structure):
    __slots__ = ()
    _fields_ = [("stream", c_uint32), ("ppid", c_uint32), ("payload", c_char_p), ("length", c_size_t)]


class MessageStruct(ctypes.Structure):
    __slots__ = ()
    _fields_ = [("stream", c_uint32), ("ppid", c_uint32), ("length", c_size_t)]


class GivenUpStruct(ctypes.Structure):
    __slots__ = ()
    _fields_ = [("number", c_uint32), ("cause", c_uint32), ("retransmissions", c_uint32)]


class EventStruct(Sized):
    __slots__ = ()
    _fields_ = [
        ("size", c_size_t),
        ("kind", c_uint32),
        ("error", c_uint32),
        ("stream", c_uint32),
        ("cause", c_uint32),
        ("lifecycle", c_uint64),
        ("length", c_size_t),
    ]


class ChannelsOptionsStruct(Sized):
    __slots__ = ()
    _fields_ = [
        ("size", c_size_t),
        ("role", c_uint32),
        ("max_message_size", c_uint32),
        ("peer_max_message_size", c_uint32),
        ("max_buffered_amount", c_uint32),
        ("max_kept_bytes", c_uint32),
        ("reserved", c_uint32),
    ]


class ChannelOptionsStruct(Sized):
    __slots__ = ()
    _fields_ = [
        ("size", c_size_t),
        ("flags", c_uint32),
        ("max_retransmissions", c_uint32),
        ("lifetime", c_uint32),
        ("priority", c_uint32),
    ]


class Statistics(Sized):
    """What a channel counts: messages that the socket accepted, and that came."""

    __slots__ = ()
    _fields_ = [
        ("size", c_size_t),
        ("messages_sent", c_uint64),
        ("bytes_sent", c_uint64),
        ("messages_received", c_uint64),
        ("bytes_received", c_uint64),
    ]


# By their names in the header.
STRUCTS: dict[str, type[ctypes.Structure]] = {
    "pigeon_socket": Handle,
    "pigeon_options": OptionsStruct,
    "pigeon_metrics": Metrics,
    "pigeon_send_options": SendOptionsStruct,
    "pigeon_outgoing": OutgoingStruct,
    "pigeon_message": MessageStruct,
    "pigeon_given_up": GivenUpStruct,
    "pigeon_event": EventStruct,
    "pigeon_channels_options": ChannelsOptionsStruct,
    "pigeon_channel_options": ChannelOptionsStruct,
    "pigeon_channel_statistics": Statistics,
}

END = POINTER(Handle)
BYTES = c_char_p  # takes bytes, and for what is written an array of c_char
STRUCT = c_void_p
U16, U32, U64, SIZE = POINTER(c_uint16), POINTER(c_uint32), POINTER(c_uint64), POINTER(c_size_t)
LENT = POINTER(c_void_p)

# What each function takes. All answer a number, but for those in ANSWERS.
FUNCTIONS: dict[str, list] = {
    "pigeon_version": [],
    "pigeon_find_text": [c_uint32, c_uint32, POINTER(c_char_p)],
    "pigeon_default_options_sized": [STRUCT, c_size_t],
    "pigeon_options_for_webrtc_sized": [STRUCT, c_size_t],
    "pigeon_check_options_sized": [STRUCT, c_size_t, U32],
    "pigeon_new_sized": [END, STRUCT, c_size_t, BYTES, c_size_t],
    "pigeon_free": [END],
    "pigeon_connect": [END],
    "pigeon_shutdown": [END],
    "pigeon_close": [END],
    "pigeon_handle_input": [END, BYTES, c_size_t],
    "pigeon_advance_time": [END, c_uint64],
    "pigeon_poll_timeout": [END, U64],
    "pigeon_state": [END, U32],
    "pigeon_clock": [END, U64],
    "pigeon_is_at_rest": [END, U32],
    "pigeon_refuses": [END, BYTES, c_size_t, U32],
    "pigeon_set_max_message_size": [END, c_uint32],
    "pigeon_get_options_sized": [END, STRUCT, c_size_t],
    "pigeon_buffered_amount": [END, c_uint32, SIZE],
    "pigeon_send_queue_room": [END, SIZE],
    "pigeon_get_metrics_sized": [END, STRUCT, c_size_t],
    "pigeon_handover_readiness": [END, U32],
    "pigeon_handover": [END, SIZE, BYTES, c_size_t],
    "pigeon_restore": [END, BYTES, c_size_t],
    "pigeon_set_stream_priority": [END, c_uint32, c_uint16],
    "pigeon_stream_priority": [END, c_uint32, U16],
    "pigeon_set_buffered_amount_low_threshold": [END, c_uint32, c_size_t],
    "pigeon_buffered_amount_low_threshold": [END, c_uint32, SIZE],
    "pigeon_reset_stream": [END, c_uint32],
    "pigeon_reset_streams": [END, U16, c_size_t],
    "pigeon_send_sized": [END, c_uint32, c_uint32, BYTES, c_size_t, STRUCT, c_size_t],
    "pigeon_send_many_sized": [END, POINTER(OutgoingStruct), c_size_t, STRUCT, c_size_t, U32, c_size_t],
    "pigeon_next_message": [END, POINTER(MessageStruct), BYTES, c_size_t],
    "pigeon_borrow_message": [END, POINTER(MessageStruct), LENT],
    "pigeon_messages_ready_count": [END, SIZE],
    "pigeon_next_given_up": [END, POINTER(GivenUpStruct)],
    "pigeon_poll_event_sized": [END, STRUCT, c_size_t, BYTES, c_size_t],
    "pigeon_borrow_event_sized": [END, STRUCT, c_size_t, LENT],
    "pigeon_channels_start_sized": [END, STRUCT, c_size_t],
    "pigeon_channel_open_sized": [END, STRUCT, c_size_t, BYTES, c_size_t, BYTES, c_size_t, U32],
    "pigeon_channel_negotiate_sized": [END, c_uint32, STRUCT, c_size_t, BYTES, c_size_t, BYTES, c_size_t],
    "pigeon_channel_send": [END, c_uint32, c_uint32, BYTES, c_size_t],
    "pigeon_channel_close": [END, c_uint32],
    "pigeon_channel_state": [END, c_uint32, U32],
    "pigeon_channels_handle_input": [END, BYTES, c_size_t],
    "pigeon_channels_borrow_event_sized": [END, STRUCT, c_size_t, LENT],
    "pigeon_channel_get_options_sized": [END, c_uint32, STRUCT, c_size_t],
    "pigeon_channel_label": [END, c_uint32, SIZE, BYTES, c_size_t],
    "pigeon_channel_protocol": [END, c_uint32, SIZE, BYTES, c_size_t],
    "pigeon_channel_get_statistics_sized": [END, c_uint32, STRUCT, c_size_t],
    "pigeon_describe_packet": [BYTES, c_size_t, SIZE, BYTES, c_size_t],
}
ANSWERS: dict[str, type | None] = {"pigeon_find_text": None, "pigeon_free": None}


def places() -> list[Path]:
    """Where the library may lie: SHELFPIGEON_LIBRARY, beside this file as a wheel has it, or in build/ of the repository."""
    if named := os.environ.get("SHELFPIGEON_LIBRARY"):
        return [Path(named)]
    here = Path(__file__).resolve().parent
    return [here / NAME, here.parents[1] / "build" / NAME]


@functools.cache
def library() -> ctypes.CDLL:
    """The library, with the types of each function."""
    found = [it for it in places() if it.exists()]
    if not found:
        asked = ", ".join(str(it) for it in places())
        raise ImportError(f"there is no {NAME}: looked for {asked}. scripts/c-library of the repository builds it, or SHELFPIGEON_LIBRARY names it")
    loaded = ctypes.CDLL(str(found[0]))
    version = loaded.pigeon_version()
    if (version // 10000, version // 100 % 100) != VERSION:
        raise ImportError(f"{found[0]} has version {version // 10000}.{version // 100 % 100}, and this package is for {VERSION[0]}.{VERSION[1]}")
    for name, arguments in FUNCTIONS.items():
        function = getattr(loaded, name)
        function.argtypes = arguments
        function.restype = ANSWERS.get(name, c_uint32)
    return loaded


def text(kind: Text, number: int) -> str:
    """The text of a number of this kind."""
    found = c_char_p()
    library().pigeon_find_text(kind, number, ctypes.byref(found))
    return (found.value or b"").decode()


def check(answer: int) -> None:
    """Raises what is not OK."""
    if answer != 0:
        raise RAISED.get(Answer(answer), PigeonError)(answer, text(Text.ANSWER, answer))
