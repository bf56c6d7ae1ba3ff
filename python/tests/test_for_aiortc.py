# SPDX-License-Identifier: Apache-2.0
"""aiortc by this library's SCTP: with itself, and with aiortc's own at the other end."""
import asyncio
import contextlib

import pytest

aiortc = pytest.importorskip("aiortc")
import aioice.ice  # noqa: E402
from aiortc.exceptions import InvalidStateError  # noqa: E402

import shelfpigeon  # noqa: E402
from shelfpigeon import ChannelState, Options, State, events  # noqa: E402

OWN = aiortc.rtcpeerconnection.RTCSctpTransport


@pytest.fixture(autouse=True)
def over_the_loopback(monkeypatch):
    monkeypatch.setattr(aioice.ice, "get_host_addresses", lambda use_ipv4, use_ipv6: ["127.0.0.1"])
    yield
    aiortc.rtcpeerconnection.RTCSctpTransport = aiortc.RTCSctpTransport = OWN


def make(ours: bool, **settings):
    if ours:
        shelfpigeon.use_for(aiortc, **settings)
    else:
        aiortc.rtcpeerconnection.RTCSctpTransport = OWN
    end = aiortc.RTCPeerConnection(aiortc.RTCConfiguration(iceServers=[]))
    end._RTCPeerConnection__createSctpTransport()  # else the other end's `make` decides which one it is
    return end


async def join(a, b) -> None:
    await a.setLocalDescription(await a.createOffer())
    await b.setRemoteDescription(a.localDescription)
    await b.setLocalDescription(await b.createAnswer())
    await a.setRemoteDescription(b.localDescription)


async def until(check) -> None:
    while not check():
        await asyncio.sleep(0.005)


@contextlib.contextmanager
def losing(end):
    """What the end sends meanwhile is lost."""
    async def loses(packet):
        pass

    transport = end.sctp.transport
    send, transport._send_data = transport._send_data, loses
    yield
    transport._send_data = send


def test_offers_by_rfc_8841():
    async def offer():
        end = make(True, max_message_size=100000)
        end.createDataChannel("first")
        said = (await end.createOffer()).sdp
        assert "UDP/DTLS/SCTP webrtc-datachannel" in said and "a=max-message-size:100000" in said
        await end.close()

    asyncio.run(offer())


@pytest.mark.parametrize("ours", [(True, True), (True, False), (False, True)])
def test_a_chat(ours):
    async def chat():
        a, b = make(ours[0]), make(ours[1])
        first, came, theirs = a.createDataChannel("first", ordered=False, maxRetransmits=5), [], []
        agreed = [end.createDataChannel("agreed", negotiated=True, id=100) for end in (a, b)]
        assert [isinstance(it.sctp, OWN) and type(it.sctp) is not OWN for it in (a, b)] == list(ours)
        b.on("datachannel", theirs.append)
        first.on("message", came.append)
        await join(a, b)
        await until(lambda: first.readyState == "open" and theirs and all(it.readyState == "open" for it in agreed))
        taken = theirs[0]
        assert (taken.label, taken.ordered, taken.maxRetransmits, taken.id) == ("first", False, 5, first.id)
        sent = ["hello", b"\0\1", "", b"", "漢字", bytes(60000)]
        taken.on("message", taken.send)
        for message in sent:
            first.send(message)
        await until(lambda: len(came) == len(sent))
        assert sorted(map(repr, came)) == sorted(map(repr, sent))
        agreed[0].on("message", came.append)
        agreed[1].send("agreed")
        await until(lambda: came[-1] == "agreed")
        if all(ours):
            assert a.sctp.maxChannels == 65535 and a.sctp.state == "connected"
            second = b.createDataChannel("second")
            await until(lambda: second.readyState == "open")
            assert second.id % 2 != first.id % 2
            first.close()
            await until(lambda: first.readyState == taken.readyState == "closed")
            with pytest.raises(InvalidStateError):
                first.send("late")
        await a.close()
        await until(lambda: agreed[1].readyState == "closed")
        await b.close()

    asyncio.run(asyncio.wait_for(chat(), 30))


def test_channels_that_are_agreed_on_have_their_numbers_before_others_begin():
    async def begins():
        a, b = make(True), make(True)
        made = [end.createDataChannel("chat") for end in (a, b)]
        agreed = [end.createDataChannel("agreed", negotiated=True, id=number) for end in (a, b) for number in (0, 1)]
        await join(a, b)
        await until(lambda: all(it.readyState == "open" for it in made + agreed))
        assert sorted(it.id for it in made) == [2, 3]
        await asyncio.gather(a.close(), b.close())

    asyncio.run(asyncio.wait_for(begins(), 30))


def test_a_channel_that_is_closed_at_once_does_not_open():
    async def closes():
        a, b = make(True), make(True)
        first, told = a.createDataChannel("first"), []
        await join(a, b)
        await until(lambda: first.readyState == "open")
        late = a.createDataChannel("late")
        late.on("open", lambda: told.append("late"))
        late.close()
        assert late.readyState == "closing"
        await until(lambda: late.readyState == "closed")
        assert told == []
        await asyncio.gather(a.close(), b.close())

    asyncio.run(asyncio.wait_for(closes(), 30))


def test_a_channel_is_closed_where_the_association_has_ended():
    async def ends():
        a, b = make(True), make(True)
        channel = a.createDataChannel("chat")
        await join(a, b)
        await until(lambda: channel.readyState == "open")
        b.sctp.socket.close()
        for packet in [it.data for it in b.sctp.socket.events() if isinstance(it, events.Packet)]:
            a.sctp.socket.handle_input(packet)
        channel.close()
        await until(lambda: channel.readyState == "closed")
        await asyncio.gather(a.close(), b.close())

    asyncio.run(asyncio.wait_for(ends(), 30))


def test_buffering():
    async def pours():
        a, b = make(True), make(True, options={"max_receiver_window_buffer_size": 1 << 20})
        channel, came, low = a.createDataChannel("much"), [], []
        b.on("datachannel", lambda it: it.on("message", came.append))
        await join(a, b)
        await until(lambda: channel.readyState == "open")
        channel.bufferedAmountLowThreshold = 100000
        channel.on("bufferedamountlow", lambda: low.append(channel.bufferedAmount))
        for number in range(30):
            channel.send(bytes([number]) * 200000)
        assert channel.bufferedAmount > 5000000
        with pytest.raises(ValueError):
            channel.send(bytes(262145))
        with pytest.raises(aiortc.exceptions.OperationError):
            for _ in range(100):
                channel.send(bytes(200000))
        await until(lambda: len(came) > 30 and channel.bufferedAmount == 0)
        assert came[:30] == [bytes([number]) * 200000 for number in range(30)] and low and low[0] <= 100000
        await asyncio.gather(a.close(), b.close())

    asyncio.run(asyncio.wait_for(pours(), 60))


def test_a_handler_that_fails_ends_nothing():
    async def fails():
        told = []
        asyncio.get_running_loop().set_exception_handler(lambda loop, context: told.append(str(context.get("exception"))))
        a, b = make(True), make(True)
        channel, came = a.createDataChannel("much"), []
        b.on("datachannel", lambda it: it.on("message", came.append))
        await join(a, b)
        await until(lambda: channel.readyState == "open")

        @channel.on("bufferedamountlow")
        def low():
            raise RuntimeError("the handler's")

        channel.send(bytes(200000))
        await until(lambda: told == ["the handler's"])
        channel.send("there")
        await until(lambda: "there" in came)
        await asyncio.gather(a.close(), b.close())

    asyncio.run(asyncio.wait_for(fails(), 30))


def test_handlers_that_fail_leave_no_channel_behind():
    async def fails():
        told = []
        asyncio.get_running_loop().set_exception_handler(lambda loop, context: told.append(str(context.get("exception"))))
        a, b = make(True), make(True)
        agreed = [end.createDataChannel("agreed", negotiated=True, id=number) for end in (a, b) for number in (100, 101)]
        made = [a.createDataChannel(str(number)) for number in range(3)]

        def fails_at(what):
            def fails():
                raise RuntimeError(what)

            return fails

        agreed[0].on("open", fails_at("open"))
        await join(a, b)
        await until(lambda: all(it.readyState == "open" for it in agreed + made))
        agreed[0].on("close", fails_at("close"))
        await b.close()
        await until(lambda: all(it.readyState == "closed" for it in agreed + made) and a.sctp.state == "closed")
        assert sorted(told) == ["close", "open"]
        await a.close()

    asyncio.run(asyncio.wait_for(fails(), 30))


def test_a_channel_that_cannot_begin_holds_up_no_other():
    async def begins():
        a = make(True, options={"max_message_size": 100})
        long, short = a.createDataChannel("x" * 200), a.createDataChannel("short")
        b = make(True)
        await join(a, b)
        await until(lambda: long.readyState == "closed" and short.readyState == "open")
        await asyncio.gather(a.close(), b.close())

    asyncio.run(asyncio.wait_for(begins(), 30))


def test_a_packet_that_dtls_does_not_send_is_as_lost():
    async def sends():
        a, b = make(True), make(True)
        channel, came = a.createDataChannel("chat"), []
        b.on("datachannel", lambda it: it.on("message", came.append))
        await join(a, b)
        await until(lambda: channel.readyState == "open")
        send, lost = a.sctp.transport._send_data, []

        async def fails_once(packet):
            if not lost:
                lost.append(packet)
                raise RuntimeError("a record too large")
            await send(packet)

        a.sctp.transport._send_data = fails_once
        channel.send("first")
        channel.send("second")
        await until(lambda: came == ["first", "second"])
        assert lost and a.sctp._flushing is None
        await asyncio.gather(a.close(), b.close())

    asyncio.run(asyncio.wait_for(sends(), 30))


def test_of_many_channels_that_buffer_each_is_counted():
    async def counts():
        a, b = make(True), make(True)
        made, low = [a.createDataChannel(str(number)) for number in range(200)], []
        for channel in made:
            channel.on("bufferedamountlow", lambda channel=channel: low.append(channel))
        await join(a, b)
        await until(lambda: all(it.readyState == "open" for it in made))
        for channel in made:
            channel.send(bytes(5000))
        assert len(a.sctp._buffering) == 200 and all(it.bufferedAmount == 5000 for it in made)
        await until(lambda: len(low) == 200 and not a.sctp._buffering and not any(it.bufferedAmount for it in made))
        await asyncio.gather(a.close(), b.close())

    asyncio.run(asyncio.wait_for(counts(), 60))


def test_of_many_channels_that_buffer_less_than_their_thresholds_each_is_counted():
    async def counts():
        a, b = make(True), make(True)
        made = [a.createDataChannel(str(number)) for number in range(1000)]
        await join(a, b)
        await until(lambda: all(it.readyState == "open" for it in made) and a.sctp.socket.is_at_rest)
        for channel in made:
            channel.bufferedAmountLowThreshold = 500
        for channel in made:
            channel.send(bytes(100))
        await asyncio.wait_for(until(lambda: not any(it.bufferedAmount for it in made)), 10)
        await asyncio.gather(a.close(), b.close())

    asyncio.run(asyncio.wait_for(counts(), 60))


def test_a_channel_that_the_peer_closes_says_so_where_it_sends():
    async def closes():
        a, b = make(True), make(True)
        mine, theirs = a.createDataChannel("chat"), []
        b.on("datachannel", theirs.append)
        await join(a, b)
        await until(lambda: mine.readyState == "open" and theirs)
        theirs = theirs[0]
        with losing(b):
            mine.close()
            await until(lambda: b.sctp._plain[theirs].state == ChannelState.CLOSING)
            with pytest.raises(InvalidStateError):
                theirs.send("late")
            assert theirs.readyState == "closing"
        await until(lambda: mine.readyState == theirs.readyState == "closed")
        await asyncio.gather(a.close(), b.close())

    asyncio.run(asyncio.wait_for(closes(), 30))


def test_what_is_said_at_the_opening_is_not_buffered():
    async def counts():
        a, b = make(True), make(True)
        big, theirs = b.createDataChannel("big"), []
        b.on("datachannel", theirs.append)
        await join(b, a)
        await until(lambda: big.readyState == "open")
        with losing(b):
            for _ in range(5):
                big.send(bytes(200000))
            a.createDataChannel("small")
            await until(lambda: theirs)
            theirs[0].send("12345")
            await asyncio.sleep(0.01)
            assert theirs[0].bufferedAmount == 5
        await asyncio.gather(a.close(), b.close())

    asyncio.run(asyncio.wait_for(counts(), 30))


def test_a_peer_that_shuts_down_takes_no_more():
    async def shuts():
        a, b = make(True), make(True)
        channel = a.createDataChannel("chat")
        await join(a, b)
        await until(lambda: channel.readyState == "open")
        for _ in range(4):
            channel.send(bytes(200000))
        await b.sctp.shutdown()
        await until(lambda: a.sctp.socket.state == State.CLOSING)
        with pytest.raises(InvalidStateError):
            channel.send("late")
        with pytest.raises(InvalidStateError):
            a.createDataChannel("late")
        await until(lambda: channel.readyState == "closed")
        await asyncio.gather(a.close(), b.close())

    asyncio.run(asyncio.wait_for(shuts(), 30))


def test_channels_that_cannot_be():
    async def tries():
        a = make(True)
        with pytest.raises(ValueError):
            a.createDataChannel("x" * 65536)
        with pytest.raises(ValueError):
            a.createDataChannel("x", maxPacketLifeTime=2**32)
        a.createDataChannel("x", negotiated=True, id=1)
        with pytest.raises(ValueError):
            a.createDataChannel("y", negotiated=True, id=1)
        waiting = a.createDataChannel("z")
        waiting.close()
        assert waiting.readyState == "closed"
        await a.close()
        assert a.sctp.state == "closed"

    asyncio.run(tries())


def test_settings():
    shelfpigeon.use_for(aiortc, max_message_size=1000)
    assert aiortc.RTCSctpTransport.getCapabilities().maxMessageSize == 1000
    assert Options.for_webrtc().per_stream_send_queue_limit == 2**24
