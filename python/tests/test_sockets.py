# SPDX-License-Identifier: Apache-2.0
"""Sockets and channels over memory, in virtual time."""
import inspect
import re
import typing

import pytest

import shelfpigeon
from shelfpigeon import aio, events
from shelfpigeon import (
    Answer,
    Channel,
    ChannelState,
    Channels,
    InvalidArgument,
    Kind,
    MessageTooLarge,
    NoChannel,
    OptionFlags,
    Options,
    PigeonError,
    QueueFull,
    Readiness,
    Refusal,
    Role,
    Socket,
    State,
    Text,
)

SECOND = 10**9


class World:
    """Two ends, and the packets between them."""

    def __init__(self, a, b, carried=lambda packet: packet):
        self.ends = (a, b)
        self.carried = carried
        self.now = 0
        self.told = {a: [], b: []}

    def settle(self, span: int = SECOND) -> None:
        """Turns of both, until nothing is to be done for so long."""
        while True:
            for end in self.ends:
                end.advance_time(self.now)
            while any([self.take(end) for end in self.ends]):
                pass
            due = [it for it in (end.poll_timeout() for end in self.ends) if it is not None]
            if not due or min(due) > self.now + span:
                return
            self.now = min(due)

    def take(self, end) -> int:
        other, packets = self.ends[end is self.ends[0]], 0
        for event in end.events():
            if isinstance(event, events.Packet):
                packets += 1
                other.handle_input(self.carried(event.data))
            else:
                self.told[end].append(event)
        return packets

    def kinds(self, end) -> list[type]:
        return [type(it) for it in self.told[end]]

    def came(self, end) -> list:
        return [it.data for it in self.told[end] if isinstance(it, events.ChannelMessage)]


@pytest.fixture
def sockets():
    with Socket() as a, Socket() as b:
        yield World(a, b)


@pytest.fixture
def channels():
    with Channels(Role.CLIENT, peer_max_message_size=262144) as a, Channels(Role.SERVER, peer_max_message_size=262144) as b:
        world = World(a, b)
        a.connect()
        world.settle()
        assert a.state == b.state == State.CONNECTED
        yield world


def test_texts():
    assert shelfpigeon.text(Text.ANSWER, Answer.QUEUE_FULL)
    assert all(shelfpigeon.text(Text.ANSWER, it) for it in Answer)
    assert all(shelfpigeon.text(Text.REFUSAL, it) for it in Refusal)
    assert Answer(99) == 99 and Answer(99).name == "UNKNOWN_99" and Answer(99) not in list(Answer)


def test_options():
    options = Options.for_webrtc(mtu=1200)
    assert (options.mtu, options.announced_maximum_incoming_streams, options.invalid_field()) == (1200, 65535, None)
    assert Options.default().max_message_size == 262144
    assert (options.max_held_fragments, Options.default().max_held_fragments) == (65536, 2**32 - 1)
    assert OptionFlags(options.flags) & ~OptionFlags(Options.default().flags) == OptionFlags.AVOID_STALLS
    assert Options.for_webrtc(mtu=1).invalid_field() == "mtu"
    with pytest.raises(InvalidArgument, match="mtu"):
        Socket(Options.for_webrtc(mtu=1))
    with pytest.raises(TypeError):
        Options.for_webrtc(mtus=1)
    with pytest.raises(AttributeError):
        options.mtus = 1
    with pytest.raises(InvalidArgument):
        Socket(seed=b"short")
    with Socket(options) as socket:
        assert socket.options.mtu == 1200


@pytest.mark.parametrize(
    "call",
    [
        lambda end: end.advance_time(-1),
        lambda end: end.advance_time(2**64),
        lambda end: end.send(2**32 + 1, 51, b"x"),
        lambda end: end.send(1, -51, b"x"),
        lambda end: end.send(1, 51, b"x", lifetime=2**64),
        lambda end: end.send_many([(2**32 + 1, 51, b"x")]),
        lambda end: end.reset_stream(2**32 + 1),
        lambda end: end.reset_streams([65537]),
        lambda end: end.set_stream_priority(1, 65536 + 256),
        lambda end: end.set_buffered_amount_low_threshold(1, -1),
        lambda end: end.buffered_amount(2**32 + 1),
        lambda end: end.set_max_message_size(2**32),
        lambda end: Options.for_webrtc(mtu=2**32 + 1200),
        lambda end: setattr(Options.for_webrtc(), "mtu", 2**32 + 1200),
        lambda end: Channels(Role.CLIENT, max_message_size=2**32),
        lambda end: Channels(Role.CLIENT).negotiate(2**32 + 1),
        lambda end: Channels(Role.CLIENT).open("x", priority=2**32 + 256),
    ],
)
def test_numbers_that_do_not_fit_are_refused(sockets, call):
    a, b = sockets.ends
    a.connect()
    sockets.settle()
    with pytest.raises(InvalidArgument):
        call(a)
    a.send(2, 51, b"there")
    sockets.settle()
    assert list(b.messages()) == [(2, 51, b"there")] and a.clock == sockets.now


def test_bytes_are_not_made_of_numbers(channels):
    a, b = channels.ends
    chat = a.open("chat")
    with pytest.raises(TypeError):
        chat.send(5)
    with pytest.raises(TypeError):
        Socket(seed=32)
    for message in (b"bytes", bytearray(b"array"), memoryview(b"view")[1:]):
        chat.send(message)
    channels.settle()
    assert channels.came(b) == [b"bytes", b"array", b"iew"]


@pytest.mark.parametrize("avoids", [False, True])
def test_stalls_are_avoided_by_a_flag(avoids):
    options = Options.default(flags=OptionFlags.PARTIAL_RELIABILITY | (OptionFlags.AVOID_STALLS if avoids else 0))
    with Socket(options) as a, Socket(options) as b, Socket(options) as c:
        assert (OptionFlags.AVOID_STALLS in OptionFlags(c.options.flags)) is avoids
        world = World(a, b)
        a.connect()
        world.settle()
        c.advance_time(world.now)
        c.restore(a.handover())
        assert (c.poll_timeout() is not None) is avoids


@pytest.mark.parametrize("take", [Socket.next_event, Socket.poll_event])
def test_an_event_that_only_a_later_library_has_is_passed_over(monkeypatch, take):
    kinds = iter([max(Kind) + 1])

    def later(function):
        def takes(at, event, *rest):
            answer = function(at, event, *rest)
            event._obj.kind = next(kinds, event._obj.kind)
            return answer

        return takes

    with Socket() as socket:
        for name in ("pigeon_borrow_event_sized", "pigeon_poll_event_sized"):
            monkeypatch.setattr(socket._library, name, later(getattr(socket._library, name)))
        socket.connect()
        socket.close()
        assert [take(socket), take(socket)] == [events.Closed(), None]


@pytest.mark.parametrize("owner", [Socket, Channels, Channel, Options, aio.Connection, aio.Channel])
def test_types_of_what_is_answered_are_declared(owner):
    for name, member in inspect.getmembers(owner):
        member = getattr(member, "fget", member)
        if inspect.isroutine(member) and hasattr(member, "__annotations__") and (name == "__enter__" or name[0] != "_"):
            assert "return" in typing.get_type_hints(member), name


def test_the_same_seed_makes_the_same_packets():
    made = []
    for _ in range(2):
        with Socket(seed=bytes(32)) as socket:
            socket.connect()
            made.append([it.data for it in socket.events() if isinstance(it, events.Packet)])
    assert made[0] == made[1] != []
    assert "INIT" in shelfpigeon.describe_packet(made[0][0])
    with pytest.raises(InvalidArgument):
        shelfpigeon.describe_packet(b"no")


def test_a_freed_socket():
    socket = Socket()
    socket.free()
    socket.free()
    with pytest.raises(PigeonError) as fault:
        socket.connect()
    assert fault.value.answer == Answer.NO_SOCKET


def test_messages_by_streams(sockets):
    a, b = sockets.ends
    assert a.state == State.CLOSED and a.metrics() is None
    a.connect()
    sockets.settle()
    assert events.Connected() in sockets.told[a] and events.Connected() in sockets.told[b]
    a.send(1, 51, b"one")
    a.send(1, 53, bytes(100000), lifecycle=7)
    assert a.send_many([(2, 51, b"two"), (3, 51, b"three"), (3, 51, b"")]) == [Answer.OK, Answer.OK, Answer.EMPTY_PAYLOAD]
    sockets.settle()
    came = list(b.messages())
    assert sorted(came) == sorted([(1, 51, b"one"), (1, 53, bytes(100000)), (2, 51, b"two"), (3, 51, b"three")])
    assert b.messages_ready_count == 0 and b.next_message() is None
    assert a.is_at_rest and a.buffered_amount(1) == 0
    assert a.send_queue_room == a.options.max_send_buffer_size
    assert any(isinstance(it, events.Lifecycle) and it.lifecycle == 7 for it in sockets.told[a])
    metrics = a.metrics()
    assert metrics.tx_messages_count == 4 and metrics.negotiated_maximum_outgoing_streams == 65535
    assert a.clock == sockets.now
    with pytest.raises(InvalidArgument):
        a.send(65536, 51, b"x")
    with pytest.raises(MessageTooLarge):
        a.send(1, 51, bytes(262145))
    a.reset_streams([1, 2])
    sockets.settle()
    reset = [it for it in sockets.told[b] if isinstance(it, events.StreamsReset)]
    assert sorted(reset[0].streams) == [1, 2]
    a.set_stream_priority(1, 512)
    assert a.stream_priority(1) == 512
    a.set_buffered_amount_low_threshold(1, 99)
    assert a.buffered_amount_low_threshold(1) == 99
    a.shutdown()
    sockets.settle()
    assert events.Closed in sockets.kinds(a) and a.state == State.CLOSED


def test_what_is_given_up(sockets):
    a, b = sockets.ends
    a.connect()
    sockets.settle()
    a.send(1, 51, b"lost", max_retransmissions=0)
    assert events.Packet in [type(it) for it in a.events()]  # and it is lost
    sockets.settle(10 * SECOND)
    given_up = a.next_given_up()
    assert (given_up.number, given_up.cause) == (0, shelfpigeon.Cause.RETRANSMISSIONS) and a.next_given_up() is None
    a.send(1, 51, b"there")
    sockets.settle()
    assert [it.data for it in b.messages()] == [b"there"]


def test_a_handover(sockets):
    a, b = sockets.ends
    a.connect()
    sockets.settle()
    assert a.handover_readiness == Readiness.READY
    record = a.handover()
    with Socket() as c:
        c.advance_time(sockets.now)
        c.restore(record)
        world = World(c, b)
        world.now = sockets.now
        c.send(4, 51, b"from the other one")
        world.settle()
        assert [it.data for it in b.messages()] == [b"from the other one"]
        with pytest.raises(PigeonError):
            c.restore(record)
    with Socket() as d, pytest.raises(InvalidArgument):
        d.restore(b"no record")


def test_refusals_of_packets(sockets):
    a, _ = sockets.ends
    assert a.refuses(b"no packet")
    a.handle_input(b"no packet")
    assert any(isinstance(it, events.Reported) and it.text for it in a.events())
    assert a.poll_event() is None


def test_channels_of_both_ends(channels):
    a, b = channels.ends
    chat = a.open("Zürich 漢字 😀", "proto", ordered=False, max_retransmissions=3, priority=512)
    chat.send("hello")
    chat.send(b"\0\1")
    chat.send("")
    chat.send(b"")
    game = b.open("", lifetime=500)
    channels.settle()
    (theirs,) = [it.channel for it in channels.told[b] if isinstance(it, events.ChannelOpened) and it.channel is not game]
    assert (theirs.label, theirs.protocol, theirs.id, chat.id, game.id) == ("Zürich 漢字 😀", "proto", 0, 0, 1)
    assert (theirs.ordered, theirs.max_retransmissions, theirs.lifetime, theirs.priority) == (False, 3, None, 512)
    assert (a.stream_priority(0), b.stream_priority(0)) == (512, 512)
    assert channels.came(b) == ["hello", b"\0\1", "", b""]
    assert events.ChannelOpened(chat) in channels.told[a]
    assert [it.lifetime for it in a if it.id == 1] == [500]
    assert chat.statistics.messages_sent == 4 and theirs.statistics.bytes_received == 7
    chat.buffered_amount_low_threshold = 100
    assert chat.buffered_amount_low_threshold == 100 and chat.buffered_amount == 0
    chat.close()
    with pytest.raises(NoChannel):
        chat.send("late")
    channels.settle()
    assert events.ChannelClosed(chat) in channels.told[a] and events.ChannelClosed(theirs) in channels.told[b]
    assert chat.is_closed and theirs.is_closed
    again = a.open("again")
    assert again.id == chat.id + 2  # what is free again is taken last
    with pytest.raises(NoChannel):
        chat.send("to the one of the same number")
    with pytest.raises(NoChannel):
        theirs.close()


def test_states_of_channels(channels):
    a, b = channels.ends
    chat, agreed = a.open("chat"), a.negotiate(8)
    assert (chat.state, agreed.state) == (ChannelState.CONNECTING, ChannelState.OPEN)
    channels.settle()
    (theirs,) = b
    assert (chat.state, theirs.state) == (ChannelState.OPEN, ChannelState.OPEN)
    chat.close()
    assert (chat.state, theirs.state) == (ChannelState.CLOSING, ChannelState.OPEN)
    channels.settle()
    assert (chat.state, theirs.state) == (ChannelState.CLOSED, ChannelState.CLOSED)
    assert (list(a), agreed.state) == ([agreed], ChannelState.OPEN)


def test_channels_that_are_agreed_on(channels):
    a, b = channels.ends
    for end in (a, b):
        end.negotiate(65534, "agreed")
        with pytest.raises(InvalidArgument):
            end.negotiate(65534)
    next(it for it in a if it.id == 65534).send("by the last number")
    channels.settle()
    assert channels.came(b) == ["by the last number"]


def test_a_channel_that_is_closed_before_the_association():
    with Channels(Role.CLIENT) as a, Channels(Role.SERVER) as b:
        world = World(a, b)
        mine, theirs = a.negotiate(5), b.negotiate(5)
        mine.close()  # its reset waits for the association
        world.settle()
        assert not mine.is_closed
        a.connect()
        world.settle()
        assert events.ChannelClosed(mine) in world.told[a] and events.ChannelClosed(theirs) in world.told[b]
        a.negotiate(5)


def test_a_channel_that_is_closed_while_the_answer_to_the_reset_before_is_lost():
    streams = {"announced_maximum_incoming_streams": 2, "announced_maximum_outgoing_streams": 2}
    with Channels(Role.CLIENT, Options.for_webrtc(**streams)) as a, Channels(Role.SERVER, Options.for_webrtc(**streams)) as b:
        world = World(a, b)
        a.connect()
        world.settle()
        first = a.open("first")
        world.settle()
        first.close()
        world.take(a)
        world.take(b)
        lost = list(a.events())  # the answer to the reset of the other end is among them
        assert events.ChannelClosed(first) in lost and any(isinstance(it, events.Packet) for it in lost)
        second = a.open("second")
        assert second.id == first.id
        world.take(a)
        second.close()
        world.settle(10 * SECOND)
        assert events.ChannelClosed(second) in world.told[a]
        assert world.kinds(b).count(events.ChannelClosed) == 2


def test_a_channel_that_the_other_end_does_not_have(channels):
    a, b = channels.ends
    alone = a.negotiate(7)
    alone.close()
    channels.settle()
    assert events.ChannelClosed(alone) in channels.told[a]
    assert events.ChannelClosed not in channels.kinds(b)
    b.negotiate(7)


def test_a_stream_without_a_channel_is_reset_in_turn_once(channels):
    a, b = channels.ends
    a._call(a._library.pigeon_reset_stream, 8)
    packets = 0
    while (more := channels.take(a) + channels.take(b)) and packets < 100:
        packets += more
    assert packets == 6
    channel = b.negotiate(8)
    channel.send(b"for nobody")
    channel.close()
    channels.settle()
    assert channel.is_closed


def test_of_streams_without_a_channel_256_are_reset_in_turn():
    with Socket() as a, Channels(Role.SERVER) as b:
        world = World(a, b)
        a.connect()
        world.settle()
        a.reset_streams(range(300))
        world.settle()
        resets = [it for it in world.told[a] if isinstance(it, events.StreamsReset)]
        assert [stream for it in resets if it.kind == Kind.INCOMING_STREAM_RESET for stream in it.streams] == list(range(256))


def test_a_channel_on_a_stream_that_the_association_does_not_have():
    with Channels(Role.CLIENT) as a, Channels(Role.SERVER, Options.for_webrtc(announced_maximum_incoming_streams=4)) as b:
        world = World(a, b)
        opened = [a.open("early") for _ in range(3)]
        a.connect()
        world.settle()
        assert [it.is_closed for it in opened] == [False, False, True]
        kinds = world.kinds(a)
        assert kinds.index(events.ChannelClosed) < kinds.index(events.Connected)


def without_resets(packet: bytes) -> bytes:
    """An INIT or an INIT ACK that doesn't say that its sender resets streams."""
    if packet[12] not in (1, 2):
        return packet
    packet = re.sub(rb"(\x80\x08\x00.)\x82", lambda found: found[1] + b"\x83", packet, count=1, flags=re.DOTALL)
    rest = 2**32 - 1
    for byte in packet[:8] + bytes(4) + packet[12:]:
        rest ^= byte
        for _ in range(8):
            rest = rest >> 1 ^ (0x82F63B78 if rest & 1 else 0)
    return packet[:8] + (rest ^ 2**32 - 1).to_bytes(4, "little") + packet[12:]


def test_what_comes_behind_a_reset_that_was_refused():
    with Channels(Role.CLIENT) as a, Channels(Role.SERVER) as b:
        world = World(a, b, without_resets)
        mine, theirs = a.negotiate(5), b.negotiate(5)
        a.connect()
        world.settle()
        mine.close()  # its reset is refused, as the peer takes none
        world.settle()
        assert events.ChannelClosed(mine) in world.told[a] and mine.is_closed
        theirs.send("late")
        theirs.send(b"later")
        world.settle()
        assert world.told[a].count(events.ChannelRefused(5, Refusal.NO_CHANNEL)) == 2
        with pytest.raises(InvalidArgument):
            a.negotiate(5)


def test_what_channels_refuse(channels):
    a, b = channels.ends
    chat = a.open("chat")
    channels.settle()
    with pytest.raises(MessageTooLarge):
        chat.send(bytes(262145))
    with pytest.raises(InvalidArgument):
        a.open("x" * 65536)
    with pytest.raises(QueueFull):
        for _ in range(100):
            chat.send(bytes(262144))
    channels.settle(10 * SECOND)
    assert channels.came(b) and all(it == bytes(262144) for it in channels.came(b))
    assert events.ChannelBufferedAmountLow(chat) in channels.told[a]


def test_what_channels_keep_is_bounded():
    with Channels(Role.CLIENT) as a, Channels(Role.SERVER, max_kept_bytes=1000) as b:
        world = World(a, b)
        a.connect()
        world.settle()
        a.open("kept")
        a.open("x" * 2000)
        world.settle()
        assert events.ChannelRefused(2, Refusal.NO_ROOM) in world.told[b]
        own = b.open("y" * 2000)
        world.settle()
        assert sorted(it.label for it in b) == ["kept", own.label] and not own.is_closed


def test_an_abort_closes_the_channels(channels):
    a, b = channels.ends
    chat = a.open("chat")
    channels.settle()
    a.close()
    channels.settle()
    (aborted,) = [it for it in channels.told[b] if isinstance(it, events.Aborted)]
    assert aborted.cause == 12 and events.ChannelClosed in channels.kinds(b)
    assert chat.is_closed and list(a) == list(b) == []


def test_a_restart_by_the_peer_has_nothing_of_the_old_channels(channels):
    a, b = channels.ends
    old = a.open("old")
    channels.settle()
    (theirs,) = b
    theirs.send(bytes(100_000))  # more than may be in flight
    a.close()
    for _ in [*a.events(), *b.events()]:  # all packets are lost, the ABORT too
        pass
    a.connect()
    new = a.open("new")
    new.send(b"hello")
    channels.told[b].clear()
    channels.settle()
    assert old.is_closed and theirs.is_closed and not new.is_closed
    told = [it for it in channels.kinds(b) if it not in (events.Reported, events.ChannelBufferedAmountLow)]
    assert told == [events.ChannelClosed, events.Restarted, events.Connected, events.ChannelOpened, events.ChannelMessage]
    assert [it.label for it in a] == [it.label for it in b] == ["new"]
    assert (channels.came(a), channels.came(b)) == ([], [b"hello"])
    assert events.ChannelRefused not in channels.kinds(a)  # nothing came on the stream of the old one
    assert b.next_given_up().cause == shelfpigeon.Cause.ENDED


def test_what_waits_as_a_packet_comes_is_told_before_what_it_brings(channels):
    a, b = channels.ends
    a.open("old")
    channels.settle()
    (theirs,) = b
    packets = lambda end: [it.data for it in end.events() if isinstance(it, events.Packet)]  # noqa: E731
    with Channels(Role.CLIENT) as again:
        again.advance_time(channels.now)
        new = again.open("new")
        again.connect()
        for end, other in ((again, b), (b, again)):
            for packet in packets(end):
                other.handle_input(packet)
        theirs.send(b"lost")
        for packet in packets(again):
            b.handle_input(packet)
        told = [type(it) for it in b.events() if not isinstance(it, (events.Packet, events.ChannelBufferedAmountLow))]
        assert told == [events.ChannelClosed, events.Restarted, events.Connected, events.ChannelOpened]
        assert new.id == 0 and [it.label for it in b] == ["new"]


@pytest.mark.parametrize("number, begin", [(2, lambda end: end.open("new")), (0, lambda end: end.negotiate(0, "new"))])
def test_a_number_is_no_other_channels_before_the_end_of_its_former_one_is_taken(channels, number, begin):
    a, b = channels.ends
    old = a.open("old")
    channels.settle()
    b.close()
    for packet in [it.data for it in b.events() if isinstance(it, events.Packet)]:
        a.handle_input(packet)
    new = begin(a)
    assert (old.id, old.label, old.is_closed) == (0, "old", True) and (new.id, new.label, new.is_closed) == (number, "new", False)
    told = list(a.events())
    assert told.count(events.ChannelClosed(old)) == 1 and any(isinstance(it, events.Aborted) for it in told)
    new.buffered_amount_low_threshold = 100
    assert list(a) == [new] and new.buffered_amount_low_threshold == 100


def test_a_channel_that_ends_before_its_opening_is_taken(channels):
    a, b = channels.ends
    a.open("short")
    opened = [it.data for it in a.events() if isinstance(it, events.Packet)]
    a.close()
    aborted = [it.data for it in a.events() if isinstance(it, events.Packet)]
    for packet in opened + aborted:
        b.handle_input(packet)
    kinds = [type(it) for it in b.events()]
    assert events.ChannelClosed in kinds and events.Aborted in kinds
