/* SPDX-License-Identifier: Apache-2.0 */
/* Data channels between two sockets over memory: each end opens one, text, bytes and an empty message cross, one is closed and another one opened. */
#include "shelfpigeon.h"
#include <stdio.h>
#include <stdlib.h>

static void must(const char *what, uint32_t answer) {
    if (answer != PIGEON_OK) {
        printf("%s: %s\n", what, pigeon_answer_text(answer));
        exit(1);
    }
}

/* A seed that anyone can foresee, for an example alone: a product takes it from the system's random source. */
static const uint8_t *seed_of(uint8_t number) {
    static uint8_t seed[PIGEON_SEED_SIZE];
    seed[0] = number;
    return seed;
}

/* Says what a channel is that the peer has opened, or has answered. By now it may be gone: then its end is among the events behind this one. */
static void show_channel(const char *name, const pigeon_socket *end, uint32_t channel) {
    static char label[65535]; /* no label is longer */
    pigeon_channel_options options = PIGEON_CHANNEL_OPTIONS;
    size_t length;
    if (pigeon_channel_label(end, channel, &length, label, sizeof label) == PIGEON_NO_CHANNEL) {
        printf("%s: channel %u was open\n", name, (unsigned)channel);
        return;
    }
    must("get_options", pigeon_channel_get_options(end, channel, &options));
    printf("%s: channel %u is open: \"%.*s\", %s\n", name, (unsigned)channel, (int)length, label,
           options.flags & PIGEON_UNORDERED ? "unordered" : "ordered");
}

/* Says how far a channel is. */
static void show_state(const char *name, const pigeon_socket *end, uint32_t channel) {
    static const char *const states[] = {"closed", "connecting", "open", "closing"};
    uint32_t state = PIGEON_CHANNEL_STATE_CLOSED, answer = pigeon_channel_state(end, channel, &state);
    if (answer != PIGEON_NO_CHANNEL) /* there is none any more */
        must("state", answer);
    printf("%s: channel %u, by its state: %s\n", name, (unsigned)channel, states[state]);
}

static void show_event(const char *name, const pigeon_socket *end, const pigeon_event *event, const uint8_t *bytes) {
    unsigned stream = event->stream;
    switch (event->kind) {
    case PIGEON_CHANNEL_OPENED: show_channel(name, end, event->stream); break;
    case PIGEON_CHANNEL_TEXT: printf("%s: channel %u: \"%.*s\"\n", name, stream, (int)event->length, (const char *)bytes); break;
    case PIGEON_CHANNEL_BINARY: printf("%s: channel %u: %zu bytes\n", name, stream, event->length); break;
    case PIGEON_CHANNEL_CLOSED: printf("%s: channel %u is closed\n", name, stream); break;
    case PIGEON_CHANNEL_REFUSED: printf("%s: channel %u: %s\n", name, stream, pigeon_refusal_text(event->error)); break;
    case PIGEON_BUFFERED_AMOUNT_LOW: break; /* of a channel: more may be sent on it */
    default: printf("%s: %s\n", name, pigeon_event_text(event->kind)); break;
    }
}

/* Takes all that comes from an end, and hands its packets to the other one. Answers how many there were. The bytes of a text are printed before
 * the next call with the same socket, since they are lent until then. */
static int take_events(const char *name, pigeon_socket *from, pigeon_socket *to) {
    const uint8_t *bytes;
    pigeon_event event = PIGEON_EVENT;
    pigeon_given_up record;
    int packets = 0;
    while (pigeon_channels_borrow_event(from, &event, &bytes) == PIGEON_OK)
        if (event.kind == PIGEON_SEND_PACKET) {
            must("handle_input", pigeon_channels_handle_input(to, bytes, event.length));
            packets++;
        } else
            show_event(name, from, &event, bytes);
    while (pigeon_next_given_up(from, &record) == PIGEON_OK) {} /* kept until taken; of any channel, also of one that is reset */
    return packets;
}

/* Turns of both ends, until nothing is to be done for a second. */
static void settle(pigeon_socket *a, pigeon_socket *b, uint64_t *now) {
    for (;;) {
        must("advance_time", pigeon_advance_time(a, *now));
        must("advance_time", pigeon_advance_time(b, *now));
        while (take_events("a", a, b) + take_events("b", b, a) > 0) {}
        uint64_t next_a = UINT64_MAX, next_b = UINT64_MAX;
        must("poll_timeout", pigeon_poll_timeout(a, &next_a));
        must("poll_timeout", pigeon_poll_timeout(b, &next_b));
        uint64_t next = next_a < next_b ? next_a : next_b;
        if (next > *now + 1000000000u)
            return;
        *now = next;
    }
}

static void make(pigeon_socket *end, uint8_t number, uint32_t role) {
    pigeon_options options = PIGEON_OPTIONS;
    pigeon_channels_options channels = PIGEON_CHANNELS_OPTIONS;
    must("options", pigeon_options_for_webrtc(&options));
    must("new", pigeon_new(end, &options, seed_of(number)));
    channels.role = role;
    channels.peer_max_message_size = 262144;
    must("channels_start", pigeon_channels_start(end, &channels));
}

int main(void) {
    pigeon_socket a = PIGEON_NO_HANDLE, b = PIGEON_NO_HANDLE;
    pigeon_channel_options plainly = PIGEON_CHANNEL_OPTIONS, loosely = PIGEON_CHANNEL_OPTIONS;
    pigeon_channel_statistics statistics = PIGEON_CHANNEL_STATISTICS;
    uint32_t chat, game;
    uint64_t now = 0;
    make(&a, 1, PIGEON_ROLE_CLIENT);
    make(&b, 2, PIGEON_ROLE_SERVER);
    loosely.flags = PIGEON_UNORDERED | PIGEON_MAX_RETRANSMISSIONS; /* and max_retransmissions 0: nothing is sent again */
    must("connect", pigeon_connect(&a));
    settle(&a, &b, &now);
    must("open", pigeon_channel_open(&a, &plainly, "chat", "", &chat));
    must("send", pigeon_channel_send(&a, chat, PIGEON_CHANNEL_TEXT, (const uint8_t *)"hello", 5)); /* at once: it goes behind the opening */
    show_state("a", &a, chat);
    settle(&a, &b, &now);
    show_state("a", &a, chat);
    must("open", pigeon_channel_open(&b, &loosely, "game", "moves", &game));
    settle(&a, &b, &now);
    must("send", pigeon_channel_send(&b, game, PIGEON_CHANNEL_BINARY, (const uint8_t *)"\1\2\3", 3));
    must("send", pigeon_channel_send(&b, chat, PIGEON_CHANNEL_TEXT, PIGEON_EMPTY, 0));
    settle(&a, &b, &now);
    must("statistics", pigeon_channel_get_statistics(&a, chat, &statistics));
    printf("a: channel %u: %u sent, %u received\n", (unsigned)chat, (unsigned)statistics.messages_sent, (unsigned)statistics.messages_received);
    must("close", pigeon_channel_close(&a, chat));
    show_state("a", &a, chat);
    settle(&a, &b, &now);
    show_state("a", &a, chat);
    must("open", pigeon_channel_open(&a, &plainly, "more", "", &chat));
    settle(&a, &b, &now);
    if (pigeon_channel_send(&a, 9, PIGEON_CHANNEL_TEXT, (const uint8_t *)"?", 1) != PIGEON_NO_CHANNEL)
        printf("a message went on a channel that there isn't\n");
    must("close", pigeon_close(&a));
    settle(&a, &b, &now);
    pigeon_free(&a);
    pigeon_free(&b);
}
