/* SPDX-License-Identifier: Apache-2.0 */
/* Two sockets over memory: messages cross, one socket is handed over to a third, and the association shuts down. */
#include "shelfpigeon.h"
#include <stdio.h>
#include <stdlib.h>

static void must(const char *what, uint32_t answer) {
    if (answer != PIGEON_OK) {
        printf("%s: %s\n", what, pigeon_answer_text(answer));
        exit(1);
    }
}

/* A seed that anyone can foresee, for an example alone: a product takes it from the system's random source. */
static const uint8_t *seed_of(uint8_t number) {
    static uint8_t seed[PIGEON_SEED_SIZE];
    seed[0] = number;
    return seed;
}

/* An end and its name. */
typedef struct end {
    const char *name;
    pigeon_socket *socket;
} end;

/* Takes the messages that are ready, and the records of those that were given up: all that waits is kept until it is taken. */
static void take_messages(end it) {
    const uint8_t *payload;
    pigeon_message message;
    pigeon_given_up record;
    while (pigeon_borrow_message(it.socket, &message, &payload) == PIGEON_OK)
        printf("%s: stream %u: %.*s\n", it.name, (unsigned)message.stream, (int)message.length, (const char *)payload);
    while (pigeon_next_given_up(it.socket, &record) == PIGEON_OK)
        printf("%s: message %u was given up\n", it.name, (unsigned)record.number);
}

/* Takes all that a socket emits, and hands its packets to the other end. Messages are taken behind each packet, since they go with their
 * association, which the next one may end. Answers how many packets there were. */
static int take_events(end from, end to) {
    const uint8_t *bytes;
    pigeon_event event = PIGEON_EVENT;
    int packets = 0;
    while (pigeon_borrow_event(from.socket, &event, &bytes) == PIGEON_OK)
        if (event.kind == PIGEON_SEND_PACKET) {
            must("handle_input", pigeon_handle_input(to.socket, bytes, event.length));
            take_messages(to);
            packets++;
        } else
            printf("%s: event %u, stream %u\n", from.name, (unsigned)event.kind, (unsigned)event.stream);
    return packets;
}

/* Turns of both ends, until nothing is to be done for a second. The time is advanced first, since all calls go by it. */
static void settle(pigeon_socket *a, pigeon_socket *b, uint64_t *now) {
    end first = {"a", a}, second = {"b", b};
    for (;;) {
        must("advance_time", pigeon_advance_time(a, *now));
        must("advance_time", pigeon_advance_time(b, *now));
        while (take_events(first, second) + take_events(second, first) > 0) {}
        take_messages(first); /* time may have had some given up */
        take_messages(second);
        uint64_t next_a = UINT64_MAX, next_b = UINT64_MAX;
        must("poll_timeout", pigeon_poll_timeout(a, &next_a));
        must("poll_timeout", pigeon_poll_timeout(b, &next_b));
        uint64_t next = next_a < next_b ? next_a : next_b;
        if (next > *now + 1000000000u)
            return;
        *now = next;
    }
}

int main(void) {
    pigeon_socket a = PIGEON_NO_HANDLE, b = PIGEON_NO_HANDLE, c = PIGEON_NO_HANDLE;
    pigeon_options options = PIGEON_OPTIONS;
    pigeon_send_options plainly = PIGEON_SEND_OPTIONS;
    uint8_t record[4096];
    size_t length;
    uint64_t now = 0;
    must("options", pigeon_options_for_webrtc(&options));
    must("new", pigeon_new(&a, &options, seed_of(1)));
    must("new", pigeon_new(&b, &options, seed_of(2)));
    must("connect", pigeon_connect(&a));
    settle(&a, &b, &now);
    must("send", pigeon_send(&a, 1, 51, (const uint8_t *)"hello", 5, &plainly));
    must("send", pigeon_send(&b, 2, 51, (const uint8_t *)"world", 5, &plainly));
    settle(&a, &b, &now);
    must("handover", pigeon_handover(&b, &length, record, sizeof record)); /* a new socket goes on in b's place, whose messages were taken */
    must("new", pigeon_new(&c, &options, seed_of(3)));
    must("advance_time", pigeon_advance_time(&c, now)); /* first: a restored socket goes by its clock too */
    must("restore", pigeon_restore(&c, record, length));
    printf("a record of %zu bytes\n", length);
    must("send", pigeon_send(&c, 2, 51, (const uint8_t *)"still here", 10, &plainly));
    settle(&a, &c, &now);
    must("shutdown", pigeon_shutdown(&a));
    settle(&a, &c, &now);
    pigeon_free(&a);
    pigeon_free(&b);
    pigeon_free(&c);
}
