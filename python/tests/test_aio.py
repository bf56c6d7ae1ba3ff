# SPDX-License-Identifier: Apache-2.0
"""Connections by asyncio: over memory that loses, and over UDP of the loopback."""
import asyncio
import random

import pytest

from shelfpigeon import MessageTooLarge, OptionFlags, Options, Role, SocketFailed, State, aio, events
from shelfpigeon.names import Answer


class Memory:
    """One end of a wire. It loses packets at a rate, and what comes while it is paused."""

    def __init__(self, rate: float, seed: int):
        self.rate, self.random = rate, random.Random(seed)
        self.other: aio.Connection | None = None
        self.paused, self.pauses, self.dropped, self.closes = False, 0, 0, 0

    def send(self, packet: bytes) -> None:
        if self.other._wire.paused or self.random.random() < self.rate:
            self.dropped += 1
        else:
            asyncio.get_running_loop().call_soon(self.other.packet_received, packet)

    def pause_reading(self) -> None:
        self.paused = True
        self.pauses += 1

    def resume_reading(self) -> None:
        self.paused = False

    def close(self) -> None:
        self.closes += 1


async def pair(rate: float = 0.0, **settings) -> tuple[aio.Connection, aio.Connection]:
    wires = Memory(rate, 1), Memory(rate, 2)
    a, b = aio.Connection(wires[0], role=Role.CLIENT, **settings), aio.Connection(wires[1], role=Role.SERVER, **settings)
    wires[0].other, wires[1].other = b, a
    await asyncio.wait_for(asyncio.gather(a.connect(), b.connect()), 10)
    return a, b


def run(test):
    """A test that is a coroutine, with half a minute."""

    def runs():
        asyncio.run(asyncio.wait_for(test(), 30))

    runs.__name__ = test.__name__
    return runs


@run
async def test_messages_go_and_come():
    a, b = await pair()
    mine = a.open("chat", "proto", ordered=False)
    await mine.send("hello")
    theirs = await b.accept()
    assert (theirs.label, theirs.protocol, theirs.ordered, theirs.id) == ("chat", "proto", False, mine.id)
    await mine.opened()
    assert await theirs.receive() == "hello"
    await theirs.send(b"back")
    assert await mine.receive() == b"back"
    theirs.close()
    await asyncio.gather(mine.wait_closed(), theirs.wait_closed())
    with pytest.raises(aio.ChannelClosed):
        await mine.receive()
    with pytest.raises(aio.ChannelClosed):
        await mine.send("late")
    await a.close()
    await b.wait_closed()
    assert b.error.cause == 12 and b.socket.state == State.CLOSED
    with pytest.raises(ConnectionError):
        b.open("late")


@run
async def test_a_channel_that_is_being_closed_sends_nothing():
    a, b = await pair()
    mine = a.open("chat")
    theirs = await b.accept()
    theirs.close()
    with pytest.raises(aio.ChannelClosed):
        await theirs.send("late")
    with pytest.raises(aio.ChannelClosed):
        while True:
            await mine.send("late")
            await asyncio.sleep(0)
    assert not mine._closed.is_set()  # that comes a round trip later
    await asyncio.gather(mine.wait_closed(), theirs.wait_closed())
    await asyncio.gather(a.close(), b.close())


@run
async def test_a_channel_is_closed_where_the_association_has_ended():
    a, b = await pair()
    channel = a.open("chat")
    await channel.opened()
    b.socket.close()
    for packet in [it.data for it in b.socket.events() if isinstance(it, events.Packet)]:
        a.socket.handle_input(packet)
    channel.close()
    await asyncio.gather(channel.wait_closed(), a.wait_closed())
    b.abort()


@run
async def test_timers_run_where_packets_are_lost():
    a, b = await pair(0.1)
    channel = a.negotiate(5)
    other = b.negotiate(5)
    wanted = [str(number) * 100 for number in range(200)]
    for message in wanted:
        await channel.send(message)
    assert [await other.receive() for _ in wanted] == wanted
    await asyncio.gather(a.close(), b.close())


@run
async def test_who_sends_is_held_back():
    a, b = await pair(high_water=100000)
    channel = a.open("much")
    sent = 0

    async def send():
        nonlocal sent
        for _ in range(100):
            await channel.send(bytes(20000))
            assert channel.buffered_amount <= 120000
            sent += 1

    sending = asyncio.ensure_future(send())
    await asyncio.sleep(0)
    assert 0 < sent < 100
    theirs = await b.accept()
    for _ in range(100):
        assert await theirs.receive() == bytes(20000)
    await sending
    await asyncio.gather(a.close(), b.close())


@run
async def test_who_sends_goes_on_where_all_that_waits_is_given_up():
    a, b = await pair(high_water=20000)
    channel = a.open("short", lifetime=50)
    await channel.opened()
    a._wire.rate = 1.0

    async def send():
        for _ in range(30):
            await channel.send(bytes(2000))

    sending = asyncio.ensure_future(send())
    await asyncio.sleep(0.2)
    assert not sending.done()
    a._wire.rate = 0.0
    await asyncio.wait_for(sending, 20)
    assert channel.buffered_amount < 22000
    await asyncio.gather(a.close(), b.close())


def test_the_window_is_twice_the_largest_message():
    for size, window in ((0, 524288), (262144, 524288), (1 << 20, 1 << 21), (2**32 - 1, 2**32 - 1)):
        options = aio.options_for(size)
        assert (options.max_message_size, options.max_receiver_window_buffer_size) == (max(size, 262144), window)
        assert options.max_held_fragments == window // 8
    assert aio.options_for(1 << 20, max_message_size=9, mtu=1200).max_message_size == 9
    assert [aio.sent_at_most(aio.options_for(0), it) for it in (0, 1000, 1 << 40)] == [262144, 1000, 262144]


@run
async def test_a_socket_that_sends_no_message_refuses_it_by_its_size():
    for size in (0, 5):
        a, b = await pair(options=Options.for_webrtc(max_message_size=size))
        with pytest.raises(MessageTooLarge):
            await a.negotiate(5).send("longer")
        await asyncio.gather(a.close(), b.close())


@run
async def test_who_does_not_read_has_the_wire_paused():
    a, b = await pair(read_limit=200000)
    channel = a.open("much")

    async def send():
        for number in range(60):
            await channel.send(number.to_bytes(4, "big") * 5000)

    sending = asyncio.ensure_future(send())
    theirs = await b.accept()
    await asyncio.sleep(0.5)
    assert b._wire.paused and b._unread < 200000 + 2 * 524288
    came = [await theirs.receive() for _ in range(60)]
    assert came == [number.to_bytes(4, "big") * 5000 for number in range(60)] and b._wire.pauses >= 1
    await sending
    await asyncio.gather(a.close(), b.close())


@run
async def test_empty_messages_pause_the_wire_too():
    a, b = await pair(read_limit=6400)
    channel = a.open("empty")
    for _ in range(2000):
        await channel.send("")
    theirs = await b.accept()
    await asyncio.sleep(0.1)
    assert b._wire.paused and len(theirs._came) < 2000
    assert [await theirs.receive() for _ in range(2000)] == [""] * 2000 and b._unread == 0
    await asyncio.gather(a.close(), b.close())


@run
async def test_of_channels_that_nobody_accepts_some_are_kept():
    a, b = await pair()
    made = [a.open(str(number)) for number in range(aio.MOST_TO_ACCEPT + 6)]
    await asyncio.gather(*[it.wait_closed() for it in made[aio.MOST_TO_ACCEPT :]])
    assert not any(it._closed.is_set() for it in made[: aio.MOST_TO_ACCEPT]) and len(b._channels) == aio.MOST_TO_ACCEPT
    assert [(await b.accept()).label for _ in range(aio.MOST_TO_ACCEPT)] == [it.label for it in made[: aio.MOST_TO_ACCEPT]]
    a.open("next")
    assert (await b.accept()).label == "next" and not b._accepted
    await asyncio.gather(a.close(), b.close())


@run
async def test_a_channel_that_the_peer_has_closed_waits_no_more_to_be_accepted():
    a, b = await pair()
    first = a.open("é" * 1000, "p" * 1000)
    while not b._accepted:
        await asyncio.sleep(0.005)
    assert b._unread == 4 * 1000 + 1000 + 2 * 64
    first.close()
    while b._accepted:
        await asyncio.sleep(0.005)
    assert b._unread == 0
    a.open("next")
    assert (await b.accept()).label == "next" and b._unread == 0
    await asyncio.gather(a.close(), b.close())


@run
async def test_texts_of_channels_that_nobody_accepts_pause_the_wire():
    a, b = await pair(read_limit=20000)
    for number in range(4):
        a.open(str(number) * 10000)
    while not b._wire.paused:
        await asyncio.sleep(0.005)
    assert {(await b.accept()).label[0] for _ in range(4)} == set("0123") and b._unread == 0
    await asyncio.gather(a.close(), b.close())


@run
async def test_a_close_that_is_cancelled_ends_all():
    a, b = await pair()
    channel = a.open("chat")
    await channel.opened()
    a._wire.rate = 1.0
    await channel.send("lost")
    with pytest.raises(asyncio.TimeoutError):
        await asyncio.wait_for(a.close(), 0.05)
    assert a._closed.is_set() and a._driver._timer is None
    b.abort()


@run
async def test_each_wire_is_closed_once():
    a, b = await pair()
    await a.close()
    await b.wait_closed()
    b.abort()
    assert a._wire.closes == b._wire.closes == 1


@run
async def test_what_is_received_behind_the_end_resumes_nothing():
    a, b = await pair(read_limit=1000)
    await a.open("chat").send(bytes(2000))
    theirs = await b.accept()
    while not b._wire.paused:
        await asyncio.sleep(0.005)
    b.abort()
    assert await theirs.receive() == bytes(2000) and b._wire.paused
    a.abort()


async def fill(channel: aio.Channel, other: aio.Connection) -> asyncio.Future:
    """Sends until the other end has paused its wire."""
    sending = asyncio.gather(*[channel.send(bytes(20000)) for _ in range(20)])
    while not other._wire.paused:
        await asyncio.sleep(0.005)
    return sending


@run
async def test_a_channel_that_is_left_holds_up_nothing():
    a, b = await pair(read_limit=200000)
    left, other = a.open("left"), a.open("other")
    await left.send("first")
    theirs = await b.accept()
    assert await theirs.receive() == "first"
    sending = await fill(left, b)
    theirs.close()
    assert b._unread == sum(it._texts() for it in b._accepted) and not b._wire.paused
    await asyncio.gather(sending, left.wait_closed())
    await other.send("there")
    assert await (await b.accept()).receive() == "there" and b._unread == 0
    await asyncio.gather(a.close(), b.close())


@run
async def test_what_came_before_the_peer_closed_is_received_or_goes_with_the_channel():
    a, b = await pair(read_limit=200000)
    for label in ("received", "closed", "dropped"):
        mine = a.open(label)
        await asyncio.gather(mine.send("one"), mine.send("two"))
        mine.close()
        theirs = await b.accept()
        await theirs.wait_closed()
        assert b._unread > 0
        if label == "received":
            assert [it async for it in theirs] == ["one", "two"]
        elif label == "closed":
            theirs.close()
            assert [it async for it in theirs] == []
        del theirs
        await asyncio.sleep(0.01)
        assert b._unread == 0
    await asyncio.gather(a.close(), b.close())


@run
async def test_all_that_iterates_ends_with_the_connection():
    a, b = await pair()
    for label in ("one", "two"):
        await a.open(label).send(label)
    labels, texts = [], []
    async for channel in b:
        labels.append(channel.label)
        texts.append(await channel.receive())
        if len(labels) == 2:
            a.abort()
    async for message in channel:
        texts.append(message)
    assert labels == texts == ["one", "two"]


@run
async def test_an_owner_that_fails_is_told_of():
    told = []
    asyncio.get_running_loop().set_exception_handler(lambda loop, context: told.append(context["exception"]))
    a, b = await pair()
    b._handle_before, failing = b._driver._handle, RuntimeError("the owner's")

    def fails(event):
        b._driver._handle = b._handle_before
        raise failing

    b._driver._handle = fails
    await a.open("x").send("1")
    await asyncio.sleep(0.05)
    assert told == [failing]
    await asyncio.gather(a.close(), b.close())


@run
async def test_over_udp():
    a = aio.open_udp(("127.0.0.1", 45801), ("127.0.0.1", 45802), role=Role.CLIENT)
    b = aio.open_udp(("127.0.0.1", 45802), ("127.0.0.1", 45801), role=Role.SERVER)
    async with a, b:
        await asyncio.gather(a.connect(), b.connected())
        channel = a.open("bulk")
        theirs = await b.accept()
        sending = asyncio.ensure_future(asyncio.gather(*[channel.send(bytes([number]) * 200000) for number in range(20)]))
        for number in range(20):
            assert await theirs.receive() == bytes([number]) * 200000
        await sending


@run
async def test_nobody_is_there():
    options = Options.for_webrtc(max_init_retransmits=1, t1_init_timeout=10_000_000)
    a = aio.open_udp(("127.0.0.1", 45803), ("127.0.0.1", 45804), role=Role.CLIENT, options=options)
    with pytest.raises(ConnectionError):
        await a.connect()


class Emitted:
    """Channels that have emitted packets, with records of messages given up, and a timer."""

    def __init__(self, packets: int = 0):
        self.packets, self.left = packets, 3

    def next_event(self) -> events.Packet | None:
        self.packets -= 1
        return events.Packet(b"packet") if self.packets >= 0 else None

    def next_given_up(self) -> int | None:
        self.left -= self.left > 0
        return self.left or None

    def poll_timeout(self) -> int:
        return 10**9


@run
async def test_records_are_taken_each_turn():
    channels = Emitted()
    aio.Driver(channels, print, print, print).turn()
    assert channels.left == 0


@run
async def test_a_turn_that_comes_before_is_the_planned_one():
    turns = []
    driver = aio.Driver(Emitted(), print, print, print, lambda: turns.append("turned"))
    driver.soon()
    driver.turn()
    await asyncio.sleep(0)
    assert turns == ["turned"]
    driver.soon()
    await asyncio.sleep(0)
    assert turns == ["turned"] * 2
    driver.stop()


@run
async def test_a_turn_goes_on_where_the_owner_fails():
    told = []
    asyncio.get_running_loop().set_exception_handler(lambda loop, context: told.append(str(context["exception"])))

    def fails(packet: bytes = b"turned"):
        raise RuntimeError(packet.decode())

    channels = Emitted(packets=2)
    driver = aio.Driver(channels, fails, print, print, fails)
    driver.turn()
    assert told == ["packet", "packet", "turned"] and channels.left == 0 and driver._timer is not None
    driver.stop()


@run
async def test_where_a_call_finds_too_little_memory_all_ends():
    a, b = await pair()
    channel = a.open("chat")

    def fails():
        raise SocketFailed(Answer.MEMORY, "too little memory")

    a._driver.advance = fails
    with pytest.raises(SocketFailed):
        await channel.send("hello")
    await a.wait_closed()
    with pytest.raises(ConnectionError):
        a.open("again")
    await b.close(timeout=0)


def test_what_a_message_counts():
    assert [aio.size_of(it) for it in (b"", "abc", b"abc", "é\U0001f426")] == [64, 67, 67, 72]


@run
async def test_of_many_that_are_held_back_none_waits_where_nothing_is_in_flight():
    options = Options.default()
    options.flags |= OptionFlags.PARTIAL_RELIABILITY
    a, b = await pair(high_water=4000, options=options)
    made = [a.open(str(number), lifetime=50) for number in range(100)]
    for channel in made:
        await channel.opened()
    a._wire.rate = 1.0

    async def send(channel):
        for _ in range(4):
            await channel.send(bytes(2000))

    sending = [asyncio.ensure_future(send(it)) for it in made]
    await asyncio.sleep(0.3)
    for task in sending[:92]:
        task.cancel()
    a._wire.rate = 0.0
    await asyncio.wait_for(asyncio.gather(*sending[92:]), 10)
    a.abort()
    b.abort()


@run
async def test_who_sends_as_the_peer_shuts_down_is_told_that_the_channel_is_closed():
    a, b = await pair()
    channel = a.open("chat")
    await channel.opened()
    for _ in range(4):
        await channel.send(bytes(200000))
    with b._driver.calls() as channels:
        channels.shutdown()
    while a.socket.state != State.CLOSING:
        await asyncio.sleep(0)
    with pytest.raises(aio.ChannelClosed):
        await channel.send("late")
    with pytest.raises(ConnectionError):
        a.open("late")
    await asyncio.gather(a.wait_closed(), b.wait_closed())


@run
async def test_a_connection_that_has_ended_connects_no_more():
    a, b = await pair()
    await a.close()
    with pytest.raises(ConnectionError):
        await a.connect()
    assert a.socket.state == State.CLOSED
    await b.wait_closed()


@run
async def test_a_wire_that_aborts_has_the_peer_told():
    a, b = await pair(read_limit=1000)
    b._wire.pause_reading = b.abort
    await a.open("chat").send(bytes(2000))
    await asyncio.gather(a.wait_closed(), b.wait_closed())
    assert a.error.cause == 12 and b._wire.closes == 1


@run
async def test_a_wire_that_fails_to_resume_takes_no_message():
    told = []
    asyncio.get_running_loop().set_exception_handler(lambda loop, context: told.append(str(context["exception"])))
    a, b = await pair(read_limit=1000)
    await a.open("chat").send(bytes(2000))
    theirs = await b.accept()
    while not b._wire.paused:
        await asyncio.sleep(0.005)

    def fails():
        raise RuntimeError("the wire's")

    b._wire.resume_reading = fails
    assert await theirs.receive() == bytes(2000) and told == ["the wire's"]
    a.abort()
    b.abort()
