#!/usr/bin/env python3
# SPDX-License-Identifier: Apache-2.0
"""Two sockets over memory, by ctypes: python3 examples/python/loop.py build/libshelfpigeon.so"""
import ctypes as c
import sys
import time


class Socket(c.Structure):
    _fields_ = [("at", c.c_void_p)]


class SendOptions(c.Structure):
    _fields_ = [("size", c.c_size_t), ("flags", c.c_uint32), ("max_retransmissions", c.c_uint32), ("lifetime", c.c_uint64), ("lifecycle", c.c_uint64)]


class Message(c.Structure):
    _fields_ = [("stream", c.c_uint32), ("ppid", c.c_uint32), ("length", c.c_size_t)]


class GivenUp(c.Structure):
    _fields_ = [(name, c.c_uint32) for name in ("number", "cause", "retransmissions")]


class Event(c.Structure):
    _fields_ = (
        [("size", c.c_size_t)]
        + [(name, c.c_uint32) for name in ("kind", "error", "stream", "cause")]
        + [("lifecycle", c.c_uint64), ("length", c.c_size_t)]
    )


OK, NOTHING, SEND_PACKET = 0, 8, 0
OPTIONS_SIZE, SEED_SIZE = 176, 32
sctp = c.CDLL(sys.argv[1])


def call(name, *arguments):
    answer = getattr(sctp, name)(*arguments)
    assert answer in (OK, NOTHING), f"{name} answers {answer}"
    return answer


def new(seed):
    """A socket; a product takes the seed from os.urandom."""
    end, options = Socket(), c.create_string_buffer(OPTIONS_SIZE)
    size = c.c_size_t(OPTIONS_SIZE)
    call("pigeon_options_for_webrtc_sized", options, size)
    call("pigeon_new_sized", c.byref(end), options, size, bytes([seed] * SEED_SIZE), c.c_size_t(SEED_SIZE))
    return end


def advance(ends, start=time.monotonic_ns()):
    """Advances the time, which comes first: the calls behind it go by it."""
    for end in ends:
        call("pigeon_advance_time", c.byref(end), c.c_uint64(time.monotonic_ns() - start))


def take_messages(name, end):
    """Takes what is ready, and the records of messages that were given up: all that waits is kept until it is taken."""
    message, lent, record = Message(), c.c_void_p(), GivenUp()
    while call("pigeon_borrow_message", c.byref(end), c.byref(message), c.byref(lent)) == OK:
        print(name, "stream", message.stream, c.string_at(lent, message.length).decode())
    while call("pigeon_next_given_up", c.byref(end), c.byref(record)) == OK:
        print(name, "message", record.number, "was given up")


def settle(ends):
    """Hands each packet to the other end, until none is emitted. Messages are taken behind each: the next one may end their association."""
    advance(ends)
    goes_on = True
    while goes_on:
        goes_on = False
        for i, end in enumerate(ends):
            event, lent = Event(), c.c_void_p()
            size = c.c_size_t(c.sizeof(event))
            while call("pigeon_borrow_event_sized", c.byref(end), c.byref(event), size, c.byref(lent)) == OK:
                if event.kind == SEND_PACKET:
                    packet = c.string_at(lent, event.length)
                    call("pigeon_handle_input", c.byref(ends[1 - i]), packet, c.c_size_t(len(packet)))
                    take_messages("ba"[i], ends[1 - i])
                    goes_on = True
                else:
                    print("ab"[i], "event", event.kind)


a, b = ends = new(1), new(2)
advance(ends)
call("pigeon_connect", c.byref(a))
settle(ends)
text = b"hello from python"
advance(ends)
options = SendOptions()
call("pigeon_send_sized", c.byref(a), 1, 51, text, c.c_size_t(len(text)), c.byref(options), c.c_size_t(c.sizeof(options)))
settle(ends)
for end in ends:
    sctp.pigeon_free(c.byref(end))
