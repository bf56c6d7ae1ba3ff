/* SPDX-License-Identifier: Apache-2.0 */
/* What calls answer that can't be made, and that nothing is lost by them. Prints nothing where all is as `shelfpigeon.h` says. */
#include "places.h"
#include "shelfpigeon.h"
#include <stdio.h>
#include <stdlib.h>
#include <string.h>

static int wrong;

static void is(const char *what, uint64_t answer, uint64_t wanted) {
    if (answer != wanted) {
        printf("%s: %llu in place of %llu\n", what, (unsigned long long)answer, (unsigned long long)wanted);
        wrong = 1;
    }
}

/* A seed that anyone can foresee, for a test alone: a product takes it from the system's random source. */
static const uint8_t *seed_of(uint8_t number) {
    static uint8_t seed[PIGEON_SEED_SIZE];
    seed[0] = number;
    return seed;
}

static void without_a_socket(void) {
    pigeon_socket none = PIGEON_NO_HANDLE;
    pigeon_send_options plainly = PIGEON_SEND_OPTIONS;
    pigeon_outgoing outgoing = {1, 1, PIGEON_EMPTY, 0};
    pigeon_metrics metrics = PIGEON_METRICS;
    pigeon_event event = PIGEON_EVENT;
    pigeon_message message;
    uint16_t streams[1] = {1};
    uint64_t nanos;
    uint32_t state, answers[1];
    const uint8_t *lent;
    uint16_t priority;
    pigeon_given_up given_up;
    pigeon_options options = PIGEON_OPTIONS;
    size_t bytes;
    is("connect", pigeon_connect(&none), PIGEON_NO_SOCKET);
    is("shutdown", pigeon_shutdown(&none), PIGEON_NO_SOCKET);
    is("close", pigeon_close(&none), PIGEON_NO_SOCKET);
    is("handle_input", pigeon_handle_input(&none, PIGEON_EMPTY, 0), PIGEON_NO_SOCKET);
    is("advance_time", pigeon_advance_time(&none, 1), PIGEON_NO_SOCKET);
    is("poll_timeout", pigeon_poll_timeout(&none, &nanos), PIGEON_NO_SOCKET);
    is("state", pigeon_state(&none, &state), PIGEON_NO_SOCKET);
    is("clock", pigeon_clock(&none, &nanos), PIGEON_NO_SOCKET);
    is("is_at_rest", pigeon_is_at_rest(&none, &state), PIGEON_NO_SOCKET);
    is("refuses", pigeon_refuses(&none, PIGEON_EMPTY, 0, &state), PIGEON_NO_SOCKET);
    is("set_max_message_size", pigeon_set_max_message_size(&none, 1), PIGEON_NO_SOCKET);
    is("get_options", pigeon_get_options(&none, &options), PIGEON_NO_SOCKET);
    is("send_queue_room", pigeon_send_queue_room(&none, &bytes), PIGEON_NO_SOCKET);
    is("stream_priority", pigeon_stream_priority(&none, 1, &priority), PIGEON_NO_SOCKET);
    is("low_threshold", pigeon_buffered_amount_low_threshold(&none, 1, &bytes), PIGEON_NO_SOCKET);
    is("messages_ready_count", pigeon_messages_ready_count(&none, &bytes), PIGEON_NO_SOCKET);
    is("next_given_up", pigeon_next_given_up(&none, &given_up), PIGEON_NO_SOCKET);
    is("buffered_amount", pigeon_buffered_amount(&none, 1, &bytes), PIGEON_NO_SOCKET);
    is("set_stream_priority", pigeon_set_stream_priority(&none, 1, 1), PIGEON_NO_SOCKET);
    is("threshold", pigeon_set_buffered_amount_low_threshold(&none, 1, 1), PIGEON_NO_SOCKET);
    is("reset_stream", pigeon_reset_stream(&none, 1), PIGEON_NO_SOCKET);
    is("reset_streams", pigeon_reset_streams(&none, streams, 1), PIGEON_NO_SOCKET);
    is("get_metrics", pigeon_get_metrics(&none, &metrics), PIGEON_NO_SOCKET);
    is("handover_readiness", pigeon_handover_readiness(&none, &state), PIGEON_NO_SOCKET);
    is("handover", pigeon_handover(&none, &bytes, PIGEON_EMPTY, 0), PIGEON_NO_SOCKET);
    is("restore", pigeon_restore(&none, PIGEON_EMPTY, 0), PIGEON_NO_SOCKET);
    is("send", pigeon_send(&none, 1, 1, PIGEON_EMPTY, 0, &plainly), PIGEON_NO_SOCKET);
    is("send_many", pigeon_send_many(&none, &outgoing, 1, &plainly, answers, 1), PIGEON_NO_SOCKET);
    is("next_message", pigeon_next_message(&none, &message, PIGEON_EMPTY, 0), PIGEON_NO_SOCKET);
    is("borrow_message", pigeon_borrow_message(&none, &message, &lent), PIGEON_NO_SOCKET);
    is("poll_event", pigeon_poll_event(&none, &event, PIGEON_EMPTY, 0), PIGEON_NO_SOCKET);
    is("borrow_event", pigeon_borrow_event(&none, &event, &lent), PIGEON_NO_SOCKET);
    is("channel_state", pigeon_channel_state(&none, 1, &state), PIGEON_NO_SOCKET);
    pigeon_free(&none);
}

static void waits(void) {
    is("due", pigeon_wait(5, 5) == 0 && pigeon_wait(5, 6) == 0, 1);
    is("rounded up", pigeon_wait(6, 5) == 1 && pigeon_wait(1000005, 5) == 1 && pigeon_wait(1000006, 5) == 2, 1);
    is("long", pigeon_wait(UINT64_MAX - 1, 0) == INT32_MAX, 1);
    is("for ever", pigeon_wait(UINT64_MAX, 5) == -1, 1);
}

static void texts(void) {
    is("answer", strcmp(pigeon_answer_text(PIGEON_OK), "done") == 0, 1);
    is("last answer", strcmp(pigeon_answer_text(PIGEON_INVALID_SIZE), "size of a struct is not known") == 0, 1);
    is("no answer", strcmp(pigeon_answer_text(999), "unknown answer") == 0, 1);
    is("event", strcmp(pigeon_event_text(PIGEON_ON_ABORTED), "aborted") == 0, 1);
    is("error", strcmp(pigeon_error_text(PIGEON_ERROR_PEER_REPORTED), "peer reported") == 0, 1);
    is("state", strcmp(pigeon_state_text(PIGEON_CLOSING), "shutting down") == 0, 1);
    is("option", strcmp(pigeon_option_text(offsetof(pigeon_options, rto_max)), "rto_max") == 0, 1);
}

/* A struct of an earlier header ends before: what it lacks has its default, and isn't written. One of a later header is refused. */
static void sizes(pigeon_options options) {
    pigeon_socket end = PIGEON_NO_HANDLE;
    pigeon_options other = options, written = options;
    pigeon_metrics metrics = PIGEON_METRICS;
    pigeon_event event = PIGEON_EVENT;
    pigeon_send_options plainly = PIGEON_SEND_OPTIONS;
    uint32_t place = 9;
    size_t room;
    other.rtt_max = other.rto_min = 0; /* behind the end of the shorter struct, so that the defaults hold */
    other.max_send_buffer_size = 777;
    other.size = offsetof(pigeon_options, rtt_max);
    is("shorter options", pigeon_check_options(&other, &place), PIGEON_OK);
    is("no place", place, 0);
    is("new", pigeon_new(&end, &other, seed_of(1)), PIGEON_OK);
    is("room", pigeon_send_queue_room(&end, &room), PIGEON_OK);
    is("as the options say", room, 777);
    memset(&written, 0, sizeof written);
    written.size = offsetof(pigeon_options, rtt_max);
    is("shorter options", pigeon_get_options(&end, &written), PIGEON_OK);
    is("written", written.max_send_buffer_size == 777 && written.size == offsetof(pigeon_options, rtt_max) && written.rtt_max == 0, 1);
    written.size = sizeof written;
    is("options", pigeon_get_options(&end, &written), PIGEON_OK);
    is("the default", written.rto_min, options.rto_min);
    event.size = offsetof(pigeon_event, lifecycle);
    event.length = 99;
    is("connect", pigeon_connect(&end), PIGEON_OK);
    is("shorter event", pigeon_poll_event(&end, &event, PIGEON_EMPTY, 0), PIGEON_SHORT_BUFFER);
    is("written so far", event.kind == PIGEON_SEND_PACKET && event.length == 99, 1);
    metrics.size = event.size = other.size = plainly.size = 1000;
    is("longer options", pigeon_default_options(&other), PIGEON_INVALID_SIZE);
    is("longer options", pigeon_options_for_webrtc(&other), PIGEON_INVALID_SIZE);
    is("longer options", pigeon_check_options(&other, &place), PIGEON_INVALID_SIZE);
    is("longer options", pigeon_get_options(&end, &other), PIGEON_INVALID_SIZE);
    is("longer metrics", pigeon_get_metrics(&end, &metrics), PIGEON_INVALID_SIZE);
    is("longer event", pigeon_poll_event(&end, &event, PIGEON_EMPTY, 0), PIGEON_INVALID_SIZE);
    is("longer send options", pigeon_send(&end, 1, 51, (const uint8_t *)"x", 1, &plainly), PIGEON_INVALID_SIZE);
    plainly.size = offsetof(pigeon_send_options, lifetime);
    is("shorter send options", pigeon_send(&end, 1, 51, (const uint8_t *)"x", 1, &plainly), PIGEON_OK);
    pigeon_free(&end);
    is("longer options", pigeon_new(&end, &other, seed_of(1)), PIGEON_INVALID_SIZE);
    is("none was made", end.at == NULL, 1);
}

static void not_made(pigeon_options options) {
    pigeon_socket end = PIGEON_NO_HANDLE;
    pigeon_options other = options;
    uint32_t place = 9;
    other.mtu = 0;
    is("check", pigeon_check_options(&other, &place), PIGEON_INVALID_OPTIONS);
    is("place", place, offsetof(pigeon_options, mtu));
    is("its name", strcmp(pigeon_option_text(place), "mtu") == 0, 1);
    is("short seed", pigeon_new_sized(&end, &options, sizeof options, seed_of(1), 31), PIGEON_INVALID_ARGUMENT);
    is("mtu", pigeon_new(&end, &other, seed_of(1)), PIGEON_INVALID_OPTIONS);
    other = options;
    other.flags = 64;
    is("flags", pigeon_new(&end, &other, seed_of(1)), PIGEON_INVALID_ARGUMENT);
    other = options;
    other.checksum = 2;
    is("checksum", pigeon_new(&end, &other, seed_of(1)), PIGEON_INVALID_ARGUMENT);
    is("none was made", end.at == NULL, 1);
}

/* Copies the next event into a buffer that grows as it needs: texts are longer than packets, and what doesn't fit holds back all behind it. */
static uint32_t poll_any(pigeon_socket *end, pigeon_event *event, uint8_t **buffer, size_t *room) {
    uint32_t answer = pigeon_poll_event(end, event, *buffer, *room);
    if (answer != PIGEON_SHORT_BUFFER)
        return answer;
    free(*buffer);
    *buffer = malloc(event->length);
    *room = *buffer ? event->length : 0;
    return *buffer ? pigeon_poll_event(end, event, *buffer, *room) : PIGEON_NO_ROOM;
}

/* Hands the packets of one end to the other, four times. */
static void pass_packets(pigeon_socket *from, pigeon_socket *to) {
    size_t room = 1;
    uint8_t *buffer = malloc(room);
    pigeon_event event = PIGEON_EVENT;
    for (int turn = 0; buffer && turn < 4; turn++) {
        while (poll_any(from, &event, &buffer, &room) == PIGEON_OK)
            if (event.kind == PIGEON_SEND_PACKET)
                is("input", pigeon_handle_input(to, buffer, event.length), PIGEON_OK);
        pigeon_socket *other = from;
        from = to;
        to = other;
    }
    free(buffer);
}

/* Of a batch each message has its answer, and a refused one keeps no other back. */
static void batches(pigeon_socket *a, pigeon_socket *b) {
    static uint8_t much[262145];
    pigeon_send_options plainly = PIGEON_SEND_OPTIONS, odd = {sizeof odd, 0, 65536, 0, 0};
    const uint8_t *text = (const uint8_t *)"onetwothree";
    pigeon_outgoing batch[5] = {
        {3, 51, text, 3}, {3, 51, PIGEON_EMPTY, 0}, {4, 52, text + 3, 3}, {4, 52, much, sizeof much}, {3, 53, text + 6, 5}};
    uint32_t answers[6] = {99, 99, 99, 99, 99, 99}, wanted[6] = {PIGEON_OK, PIGEON_EMPTY_PAYLOAD, PIGEON_OK, PIGEON_MESSAGE_TOO_LARGE, PIGEON_OK, 99};
    pigeon_message message;
    uint8_t buffer[8];
    is("odd options", pigeon_send_many(a, batch, 5, &odd, answers, 6), PIGEON_INVALID_ARGUMENT);
    is("few answers", pigeon_send_many(a, batch, 5, &plainly, answers, 4), PIGEON_SHORT_BUFFER);
    batch[4].stream = 65536;
    is("odd stream", pigeon_send_many(a, batch, 5, &plainly, answers, 6), PIGEON_INVALID_STREAM);
    is("no answer yet", answers[0], 99);
    batch[4].stream = 3;
    is("no message", pigeon_send_many(a, batch, 0, &plainly, answers, 0), PIGEON_OK);
    is("batch", pigeon_send_many(a, batch, 5, &plainly, answers, 6), PIGEON_SOME_REFUSED);
    is("answers", memcmp(answers, wanted, sizeof answers) == 0, 1);
    pass_packets(a, b);
    is("first", pigeon_next_message(b, &message, buffer, sizeof buffer), PIGEON_OK);
    is("as it was sent", message.stream == 3 && message.ppid == 51 && message.length == 3 && memcmp(buffer, "one", 3) == 0, 1);
    is("second", pigeon_next_message(b, &message, buffer, sizeof buffer), PIGEON_OK);
    is("as it was sent", message.stream == 4 && message.ppid == 52 && message.length == 3 && memcmp(buffer, "two", 3) == 0, 1);
    is("third", pigeon_next_message(b, &message, buffer, sizeof buffer), PIGEON_OK);
    is("as it was sent", message.stream == 3 && message.ppid == 53 && message.length == 5 && memcmp(buffer, "three", 5) == 0, 1);
    is("no other", pigeon_next_message(b, &message, buffer, sizeof buffer), PIGEON_NOTHING);
    is("whole batch", pigeon_send_many(a, batch, 1, &plainly, answers, 1), PIGEON_OK);
    is("its answer", answers[0], PIGEON_OK);
    pass_packets(a, b);
    is("fourth", pigeon_next_message(b, &message, buffer, sizeof buffer), PIGEON_OK);
}

/* Several streams are reset by one request; the counts of the association go on. */
static void resets_and_counts(pigeon_socket *a, pigeon_socket *b) {
    uint16_t streams[3] = {3, 4, 65535};
    uint8_t buffer[1500];
    pigeon_metrics metrics = PIGEON_METRICS;
    pigeon_event event = PIGEON_EVENT;
    uint32_t readiness = 9, told = 0;
    is("quiet", pigeon_handover_readiness(a, &readiness), PIGEON_OK);
    is("ready", readiness & PIGEON_WRONG_CONNECTION_STATE, 0);
    is("reset", pigeon_reset_streams(a, streams, 3), PIGEON_OK);
    is("readiness", pigeon_handover_readiness(a, &readiness), PIGEON_OK);
    is("a request waits", readiness & PIGEON_PENDING_STREAM_RESET_REQUEST, PIGEON_PENDING_STREAM_RESET_REQUEST);
    while (pigeon_poll_event(a, &event, buffer, sizeof buffer) == PIGEON_OK)
        if (event.kind == PIGEON_SEND_PACKET)
            is("input", pigeon_handle_input(b, buffer, event.length), PIGEON_OK);
    while (pigeon_poll_event(b, &event, buffer, sizeof buffer) == PIGEON_OK) {
        if (event.kind == PIGEON_SEND_PACKET)
            is("input", pigeon_handle_input(a, buffer, event.length), PIGEON_OK);
        if (event.kind == PIGEON_INCOMING_STREAM_RESET)
            told += event.length == 6 && pigeon_stream_at(buffer, 0) == 3 && pigeon_stream_at(buffer, 1) == 4 && pigeon_stream_at(buffer, 2) == 65535;
    }
    is("the streams are told", told, 1);
    is("none", pigeon_reset_streams(a, streams, 0), PIGEON_OK);
    is("metrics", pigeon_get_metrics(a, &metrics), PIGEON_OK);
    is("messages", metrics.tx_messages_count, 5);
    is("peer", metrics.peer_implementation, PIGEON_PEER_DCSCTP_RS);
    is("streams", metrics.negotiated_maximum_outgoing_streams, 65535);
    is("interleaving", metrics.uses_message_interleaving, 0);
}

/* A record that doesn't fit stays, bytes that are no record change nothing, and who takes the record up goes on. */
static void handovers(pigeon_socket *a, pigeon_socket *b, const pigeon_options *options) {
    static uint8_t record[65536], again[65536];
    pigeon_socket c = PIGEON_NO_HANDLE, d = PIGEON_NO_HANDLE;
    pigeon_send_options plainly = PIGEON_SEND_OPTIONS;
    pigeon_message message;
    pigeon_event event = PIGEON_EVENT;
    uint8_t buffer[1500];
    uint32_t state;
    size_t needed = 0, length = 0;
    is("send", pigeon_send(b, 9, 51, (const uint8_t *)"held", 4, &plainly), PIGEON_OK);
    is("not ready", pigeon_handover(b, &needed, record, sizeof record), PIGEON_NOT_READY);
    pass_packets(b, a);
    is("handed out", pigeon_next_message(a, &message, buffer, sizeof buffer), PIGEON_OK);
    is("new", pigeon_new(&c, options, seed_of(3)), PIGEON_OK);
    is("new", pigeon_new(&d, options, seed_of(4)), PIGEON_OK);
    is("short", pigeon_handover(b, &needed, PIGEON_EMPTY, 0), PIGEON_SHORT_BUFFER);
    is("its length", 0 < needed && needed < sizeof record, 1);
    is("short again", pigeon_handover(b, &length, record, needed - 1), PIGEON_SHORT_BUFFER);
    is("same length", length, needed);
    is("closed", pigeon_state(b, &state), PIGEON_OK);
    is("state", state, PIGEON_CLOSED);
    is("record", pigeon_handover(b, &length, record, needed), PIGEON_OK);
    is("same length", length, needed);
    is("event", pigeon_poll_event(b, &event, buffer, sizeof buffer), PIGEON_OK);
    is("on closed", event.kind, PIGEON_ON_CLOSED);
    is("no bytes", pigeon_restore(&c, PIGEON_EMPTY, 0), PIGEON_INVALID_STATE);
    is("cut short", pigeon_restore(&c, record, length - 1), PIGEON_INVALID_STATE);
    is("too long", pigeon_restore(&c, record, length + 1), PIGEON_INVALID_STATE);
    for (size_t i = 0; i < 8; i++) { /* the version, and the flags behind it */
        record[i] ^= 2;
        is("damaged", pigeon_restore(&c, record, length), PIGEON_INVALID_STATE);
        record[i] ^= 2;
    }
    memset(record + 8, 0, 4);
    is("no tag", pigeon_restore(&c, record, length), PIGEON_INVALID_STATE);
    is("unlike", pigeon_handover(b, &needed, again, sizeof again), PIGEON_OK);
    is("of a closed one", needed == 136 && memcmp(again, "\0\0\0\1\0", 5) == 0, 1);
    is("nothing to take up", pigeon_restore(&d, again, needed), PIGEON_OK);
    is("no event", pigeon_poll_event(&d, &event, buffer, sizeof buffer), PIGEON_NOTHING);
    is("not closed", pigeon_restore(a, again, needed), PIGEON_NOT_CLOSED);
    pigeon_free(&c);
    pigeon_free(&d);
}

/* The same socket, handed over twice, is the same record; a message comes through behind it. */
static void taken_up(pigeon_socket *a, pigeon_socket *b, const pigeon_options *options) {
    static uint8_t record[65536], again[65536];
    pigeon_socket c = PIGEON_NO_HANDLE;
    pigeon_send_options plainly = PIGEON_SEND_OPTIONS;
    pigeon_message message;
    uint8_t buffer[1500];
    uint32_t state;
    size_t length, needed;
    is("connect", pigeon_connect(b), PIGEON_OK);
    pass_packets(b, a);
    is("record", pigeon_handover(b, &length, record, sizeof record), PIGEON_OK);
    is("new", pigeon_new(&c, options, seed_of(3)), PIGEON_OK);
    is("restore", pigeon_restore(&c, record, length), PIGEON_OK);
    is("state", pigeon_state(&c, &state), PIGEON_OK);
    is("connected", state, PIGEON_CONNECTED);
    is("again", pigeon_restore(&c, record, length), PIGEON_NOT_CLOSED);
    is("record", pigeon_handover(&c, &needed, again, sizeof again), PIGEON_OK);
    is("the same", needed == length && memcmp(record, again, length) == 0, 1);
    is("restore", pigeon_restore(&c, again, needed), PIGEON_OK);
    is("send", pigeon_send(&c, 5, 51, (const uint8_t *)"here", 4, &plainly), PIGEON_OK);
    pass_packets(&c, a);
    is("message", pigeon_next_message(a, &message, buffer, sizeof buffer), PIGEON_OK);
    is("as it was sent", message.stream == 5 && message.length == 4 && memcmp(buffer, "here", 4) == 0, 1);
    pigeon_free(&c);
}

/* With PIGEON_AVOID_STALLS a socket that takes up a record has a timer that runs, without it none. */
static void avoids_stalls(pigeon_options options) {
    static uint8_t record[65536];
    for (uint32_t flag = 0; flag <= PIGEON_AVOID_STALLS; flag += PIGEON_AVOID_STALLS) {
        pigeon_socket a = PIGEON_NO_HANDLE, b = PIGEON_NO_HANDLE, c = PIGEON_NO_HANDLE;
        pigeon_options written = PIGEON_OPTIONS;
        uint64_t nanos = 9;
        size_t length = 0;
        options.flags = (options.flags & ~(uint32_t)PIGEON_AVOID_STALLS) | flag;
        is("new", pigeon_new(&a, &options, seed_of(1)), PIGEON_OK);
        is("new", pigeon_new(&b, &options, seed_of(2)), PIGEON_OK);
        is("new", pigeon_new(&c, &options, seed_of(3)), PIGEON_OK);
        is("options", pigeon_get_options(&c, &written), PIGEON_OK);
        is("the flag", written.flags & PIGEON_AVOID_STALLS, flag);
        is("connect", pigeon_connect(&a), PIGEON_OK);
        pass_packets(&a, &b);
        is("record", pigeon_handover(&a, &length, record, sizeof record), PIGEON_OK);
        is("restore", pigeon_restore(&c, record, length), PIGEON_OK);
        is("timeout", pigeon_poll_timeout(&c, &nanos), PIGEON_OK);
        is("a timer runs", nanos < UINT64_MAX, flag != 0);
        pigeon_free(&a);
        pigeon_free(&b);
        pigeon_free(&c);
    }
}

/* An event, and a message, that don't fit stay. */
static void short_buffers(pigeon_socket *a, pigeon_socket *b) {
    pigeon_send_options plainly = PIGEON_SEND_OPTIONS;
    uint8_t buffer[1500];
    pigeon_event first = PIGEON_EVENT, event = PIGEON_EVENT;
    pigeon_message message;
    is("connect", pigeon_connect(a), PIGEON_OK);
    is("short event", pigeon_poll_event(a, &first, PIGEON_EMPTY, 0), PIGEON_SHORT_BUFFER);
    is("its length", first.length > 0 && first.kind == PIGEON_SEND_PACKET, 1);
    is("short again", pigeon_poll_event(a, &event, buffer, first.length - 1), PIGEON_SHORT_BUFFER);
    is("fits", pigeon_poll_event(a, &event, buffer, first.length), PIGEON_OK);
    is("same length", event.length, first.length);
    is("INIT's chunk type", buffer[12], 1);
    is("input", pigeon_handle_input(b, buffer, event.length), PIGEON_OK);
    pass_packets(b, a);
    is("empty payload", pigeon_send(a, 1, 51, PIGEON_EMPTY, 0, &plainly), PIGEON_EMPTY_PAYLOAD);
    is("send", pigeon_send(a, 7, 51, (const uint8_t *)"four", 4, &plainly), PIGEON_OK);
    while (pigeon_poll_event(a, &event, buffer, sizeof buffer) == PIGEON_OK)
        if (event.kind == PIGEON_SEND_PACKET)
            is("input", pigeon_handle_input(b, buffer, event.length), PIGEON_OK);
    is("short message", pigeon_next_message(b, &message, buffer, 3), PIGEON_SHORT_BUFFER);
    is("its length", message.length, 4);
    memset(buffer, 0, sizeof buffer);
    is("message", pigeon_next_message(b, &message, buffer, 4), PIGEON_OK);
    is("as it was sent", message.stream == 7 && message.ppid == 51 && memcmp(buffer, "four", 5) == 0, 1);
    is("no other", pigeon_next_message(b, &message, buffer, 4), PIGEON_NOTHING);
}

/* Hands the packets of one end to the other as they are lent, four times. Answers how many events of a kind the other end emitted. */
static int lend_packets(pigeon_socket *from, pigeon_socket *to, uint32_t kind) {
    const uint8_t *bytes;
    pigeon_event event = PIGEON_EVENT;
    int told = 0;
    for (int turn = 0; turn < 4; turn++) {
        while (pigeon_borrow_event(from, &event, &bytes) == PIGEON_OK) {
            if (event.kind == PIGEON_SEND_PACKET)
                is("input", pigeon_handle_input(to, bytes, event.length), PIGEON_OK);
            told += event.kind == kind;
        }
        pigeon_socket *other = from;
        from = to;
        to = other;
    }
    return told;
}

/* What is lent is what would be copied, once. What didn't fit a buffer is lent next, and what isn't asked for again is let go. */
static void lends(const pigeon_options *options) {
    pigeon_socket a = PIGEON_NO_HANDLE, twin = PIGEON_NO_HANDLE, b = PIGEON_NO_HANDLE;
    pigeon_send_options plainly = PIGEON_SEND_OPTIONS;
    uint16_t streams[2] = {3, 258};
    uint8_t buffer[1500];
    const uint8_t *bytes;
    pigeon_event event = PIGEON_EVENT, copied = PIGEON_EVENT;
    pigeon_message message;
    is("new", pigeon_new(&a, options, seed_of(1)), PIGEON_OK);
    is("new", pigeon_new(&twin, options, seed_of(1)), PIGEON_OK);
    is("new", pigeon_new(&b, options, seed_of(2)), PIGEON_OK);
    is("nothing to lend", pigeon_borrow_event(&a, &event, &bytes), PIGEON_NOTHING);
    is("no message to lend", pigeon_borrow_message(&a, &message, &bytes), PIGEON_NOTHING);
    is("connect", pigeon_connect(&a), PIGEON_OK);
    is("connect", pigeon_connect(&twin), PIGEON_OK);
    is("short", pigeon_poll_event(&a, &event, PIGEON_EMPTY, 0), PIGEON_SHORT_BUFFER);
    is("copied", pigeon_poll_event(&twin, &copied, buffer, sizeof buffer), PIGEON_OK);
    is("lent", pigeon_borrow_event(&a, &event, &bytes), PIGEON_OK);
    is("the same", memcmp(&event, &copied, sizeof event) == 0 && memcmp(bytes, buffer, event.length) == 0, 1);
    is("handed on", pigeon_handle_input(&b, bytes, event.length), PIGEON_OK);
    is("lent once", pigeon_borrow_event(&a, &event, &bytes), PIGEON_NOTHING);
    is("both are connected", lend_packets(&b, &a, PIGEON_ON_CONNECTED), 2);
    is("send", pigeon_send(&a, 258, 51, (const uint8_t *)"first", 5, &plainly), PIGEON_OK);
    is("send", pigeon_send(&a, 3, 52, (const uint8_t *)"second", 6, &plainly), PIGEON_OK);
    lend_packets(&a, &b, PIGEON_ON_ERROR);
    is("short message", pigeon_next_message(&b, &message, buffer, 4), PIGEON_SHORT_BUFFER);
    is("lent", pigeon_borrow_message(&b, &message, &bytes), PIGEON_OK);
    is("as it was sent", message.stream == 258 && message.ppid == 51 && message.length == 5 && memcmp(bytes, "first", 5) == 0, 1);
    is("copied", pigeon_next_message(&b, &message, buffer, sizeof buffer), PIGEON_OK);
    is("as it was sent", message.stream == 3 && message.ppid == 52 && message.length == 6 && memcmp(buffer, "second", 6) == 0, 1);
    is("no other", pigeon_borrow_message(&b, &message, &bytes), PIGEON_NOTHING);
    is("reset", pigeon_reset_streams(&a, streams, 2), PIGEON_OK);
    is("lent", pigeon_borrow_event(&a, &event, &bytes), PIGEON_OK);
    is("input", pigeon_handle_input(&b, bytes, event.length), PIGEON_OK);
    is("lent", pigeon_borrow_event(&b, &event, &bytes), PIGEON_OK);
    while (event.kind == PIGEON_SEND_PACKET)
        is("lent", pigeon_borrow_event(&b, &event, &bytes), PIGEON_OK);
    is("streams", event.kind == PIGEON_INCOMING_STREAM_RESET && event.length == 4 && pigeon_stream_at(bytes, 0) == 3 && pigeon_stream_at(bytes, 1) == 258, 1);
    is("no packet", pigeon_handle_input(&a, PIGEON_EMPTY, 0), PIGEON_OK);
    is("lent", pigeon_borrow_event(&a, &event, &bytes), PIGEON_OK);
    is("a text", event.kind == PIGEON_ON_ERROR && event.error == PIGEON_ERROR_PARSE_FAILED && event.length > 0, 1);
    pigeon_free(&a); /* with a text that is lent, */
    pigeon_free(&twin);
    pigeon_free(&b); /* and with streams */
}

/* What a socket is asked changes nothing, and says how it stands. */
static void asks(const pigeon_options *options) {
    pigeon_socket a = PIGEON_NO_HANDLE, b = PIGEON_NO_HANDLE;
    const pigeon_socket *asked = &a;
    pigeon_options webrtc = PIGEON_OPTIONS, written = PIGEON_OPTIONS;
    pigeon_send_options plainly = PIGEON_SEND_OPTIONS;
    pigeon_event event = PIGEON_EVENT;
    uint8_t buffer[1500];
    uint16_t priority = 0;
    uint32_t answer = 9;
    uint64_t nanos = 9;
    size_t bytes = 9;
    is("webrtc", pigeon_options_for_webrtc(&webrtc), PIGEON_OK);
    is("as it says", webrtc.mtu == 1191 && webrtc.zero_checksum_method == PIGEON_ZERO_CHECKSUM_DTLS && webrtc.checksum == PIGEON_CHECKSUM_CRC32C
            && webrtc.max_receiver_window_buffer_size == 2 * webrtc.max_message_size && webrtc.announced_maximum_incoming_streams == 65535
            && webrtc.per_stream_send_queue_limit == 16777216 && webrtc.max_send_buffer_size == 4294967295, 1);
    is("avoids stalls, by default not", webrtc.flags & ~options->flags, PIGEON_AVOID_STALLS);
    is("new", pigeon_new(&a, options, seed_of(1)), PIGEON_OK);
    is("new", pigeon_new(&b, options, seed_of(2)), PIGEON_OK);
    is("time", pigeon_advance_time(&a, 1234), PIGEON_OK);
    is("clock", pigeon_clock(asked, &nanos), PIGEON_OK);
    is("the last moment", nanos, 1234);
    is("rest", pigeon_is_at_rest(asked, &answer), PIGEON_OK);
    is("at rest", answer, 1);
    is("send", pigeon_send(&a, 1, 51, (const uint8_t *)"waits", 5, &plainly), PIGEON_OK);
    is("rest", pigeon_is_at_rest(asked, &answer), PIGEON_OK);
    is("not at rest", answer, 0);
    is("room", pigeon_send_queue_room(asked, &bytes), PIGEON_OK);
    is("less what waits", bytes, options->max_send_buffer_size - 5);
    is("priority", pigeon_set_stream_priority(&a, 1, 7), PIGEON_OK);
    is("priority", pigeon_stream_priority(asked, 1, &priority), PIGEON_OK);
    is("as it was set", priority, 7);
    is("stream", pigeon_stream_priority(asked, 65536, &priority), PIGEON_INVALID_STREAM);
    is("threshold", pigeon_set_buffered_amount_low_threshold(&a, 1, 3), PIGEON_OK);
    is("threshold", pigeon_buffered_amount_low_threshold(asked, 1, &bytes), PIGEON_OK);
    is("as it was set", bytes, 3);
    is("stream", pigeon_buffered_amount_low_threshold(asked, 65536, &bytes), PIGEON_INVALID_STREAM);
    is("largest message", pigeon_set_max_message_size(&a, 4), PIGEON_OK);
    is("options", pigeon_get_options(asked, &written), PIGEON_OK);
    is("as it was set", written.max_message_size, 4);
    written.max_message_size = options->max_message_size;
    is("else as it was made", memcmp(&written, options, sizeof written) == 0, 1);
    is("too large", pigeon_send(&a, 1, 51, (const uint8_t *)"large", 5, &plainly), PIGEON_MESSAGE_TOO_LARGE);
    is("no packet", pigeon_refuses(asked, PIGEON_EMPTY, 0, &answer), PIGEON_OK);
    is("refused", answer, 1);
    is("connect", pigeon_connect(&a), PIGEON_OK);
    while (pigeon_poll_event(&a, &event, buffer, sizeof buffer) == PIGEON_OK && event.kind != PIGEON_SEND_PACKET) {}
    is("INIT", pigeon_refuses(&b, buffer, event.length, &answer), PIGEON_OK);
    is("not refused", answer, 0);
    is("input", pigeon_handle_input(&b, buffer, event.length), PIGEON_OK);
    pass_packets(&b, &a);
    is("messages", pigeon_messages_ready_count(&b, &bytes), PIGEON_OK);
    is("one", bytes, 1);
    is("close", pigeon_close(&a), PIGEON_OK);
    while (pigeon_poll_event(&a, &event, buffer, sizeof buffer) == PIGEON_OK)
        if (event.kind == PIGEON_SEND_PACKET)
            is("input", pigeon_handle_input(&b, buffer, event.length), PIGEON_OK);
    while (pigeon_poll_event(&b, &event, buffer, sizeof buffer) == PIGEON_OK && event.kind != PIGEON_ON_ABORTED) {}
    is("aborted", event.kind == PIGEON_ON_ABORTED && event.error == PIGEON_ERROR_PEER_REPORTED, 1);
    is("by the peer's user", event.cause, 12);
    pigeon_free(&a);
    pigeon_free(&b);
}

/* A message whose lifetime passes in the queue is given up, and has a record. */
static void gives_up(const pigeon_options *options) {
    pigeon_socket a = PIGEON_NO_HANDLE, b = PIGEON_NO_HANDLE;
    pigeon_send_options plainly = PIGEON_SEND_OPTIONS, shortly = {sizeof shortly, PIGEON_LIFETIME, 0, 1000000, 0};
    pigeon_given_up given_up = {9, 9, 9};
    is("new", pigeon_new(&a, options, seed_of(1)), PIGEON_OK);
    is("new", pigeon_new(&b, options, seed_of(2)), PIGEON_OK);
    is("none", pigeon_next_given_up(&a, &given_up), PIGEON_NOTHING);
    is("send", pigeon_send(&a, 1, 51, (const uint8_t *)"first", 5, &plainly), PIGEON_OK);
    is("send", pigeon_send(&a, 1, 51, (const uint8_t *)"second", 6, &shortly), PIGEON_OK);
    is("time", pigeon_advance_time(&a, 1000000000), PIGEON_OK);
    is("connect", pigeon_connect(&a), PIGEON_OK);
    pass_packets(&a, &b);
    is("one", pigeon_next_given_up(&a, &given_up), PIGEON_OK);
    is("the second one", given_up.number == 1 && given_up.cause == PIGEON_CAUSE_LIFETIME && given_up.retransmissions == 0, 1);
    is("no other", pigeon_next_given_up(&a, &given_up), PIGEON_NOTHING);
    pigeon_free(&a);
    pigeon_free(&b);
}

int main(void) {
    pigeon_socket a = PIGEON_NO_HANDLE, b = PIGEON_NO_HANDLE;
    pigeon_send_options odd = {sizeof odd, 8, 0, 0, 0};
    pigeon_options options = PIGEON_OPTIONS;
    pigeon_metrics metrics = PIGEON_METRICS;
    uint16_t streams[1] = {1};
    const uint8_t text[1] = {65};
    uint32_t state = 9;
    memset(&options, 255, sizeof options);
    options.size = sizeof options;
    is("options", pigeon_default_options(&options), PIGEON_OK);
    is("local_port", options.local_port, 5000);
    is("min_rtt_variance", options.min_rtt_variance, 220000000);
    texts();
    waits();
    sizes(options);
    without_a_socket();
    not_made(options);
    is("new", pigeon_new(&a, &options, seed_of(1)), PIGEON_OK);
    is("again", pigeon_new(&a, &options, seed_of(1)), PIGEON_IN_USE);
    is("new", pigeon_new(&b, &options, seed_of(2)), PIGEON_OK);
    is("state", pigeon_state(&a, &state), PIGEON_OK);
    is("closed", state, PIGEON_CLOSED);
    is("readiness", pigeon_handover_readiness(&a, &state), PIGEON_OK);
    is("ready", state, PIGEON_READY);
    is("metrics", pigeon_get_metrics(&a, &metrics), PIGEON_NOTHING);
    is("resets", pigeon_reset_streams(&a, streams, 1), PIGEON_NO_ASSOCIATION);
    is("stream", pigeon_reset_stream(&a, 65536), PIGEON_INVALID_STREAM);
    is("no channels", pigeon_channel_state(&a, 1, &state), PIGEON_NO_CHANNELS);
    is("channel", pigeon_channel_state(&a, 65536, &state), PIGEON_INVALID_STREAM);
    is("send flags", pigeon_send(&a, 1, 1, text, 1, &odd), PIGEON_INVALID_ARGUMENT);
    lends(&options);
    asks(&options);
    gives_up(&options);
    avoids_stalls(options);
    short_buffers(&a, &b);
    batches(&a, &b);
    resets_and_counts(&a, &b);
    handovers(&a, &b, &options);
    taken_up(&a, &b, &options);
    pigeon_free(&a);
    pigeon_free(&a);
    is("freed", pigeon_connect(&a), PIGEON_NO_SOCKET);
    pigeon_free(&b);
    return wrong;
}
