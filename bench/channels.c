/* SPDX-License-Identifier: Apache-2.0 */
/* channels HOW COUNT SIZE EACH: COUNT messages of SIZE bytes from one socket to another, EACH a turn, by the socket's own calls where HOW is
 * `socket`, and on a data channel where it is `channel`; `stalls` is as `socket`, without PIGEON_AVOID_STALLS. All lend what they hand out. */
#include "shelfpigeon.h"
#include <stdio.h>
#include <stdlib.h>
#include <string.h>

static int by_channel, stalls;
static long messages;

static void must(const char *what, uint32_t answer) {
    if (answer != PIGEON_OK) {
        printf("%s: %s\n", what, pigeon_answer_text(answer));
        exit(1);
    }
}

static int hear_channels(pigeon_socket *from, pigeon_socket *to) {
    const uint8_t *bytes;
    pigeon_event event = PIGEON_EVENT;
    int packets = 0;
    while (pigeon_channels_borrow_event(from, &event, &bytes) == PIGEON_OK)
        if (event.kind == PIGEON_SEND_PACKET) {
            must("handle_input", pigeon_channels_handle_input(to, bytes, event.length));
            packets++;
        } else if (event.kind == PIGEON_CHANNEL_BINARY)
            messages++;
    return packets;
}

static int hear_socket(pigeon_socket *from, pigeon_socket *to) {
    const uint8_t *bytes;
    pigeon_event event = PIGEON_EVENT;
    pigeon_message message;
    int packets = 0;
    while (pigeon_borrow_event(from, &event, &bytes) == PIGEON_OK)
        if (event.kind == PIGEON_SEND_PACKET) {
            must("handle_input", pigeon_handle_input(to, bytes, event.length));
            packets++;
        }
    while (pigeon_borrow_message(from, &message, &bytes) == PIGEON_OK)
        messages++;
    return packets;
}

static int hear(pigeon_socket *from, pigeon_socket *to) {
    return by_channel ? hear_channels(from, to) : hear_socket(from, to);
}

static void make(pigeon_socket *end, uint8_t number) {
    static uint8_t seed[PIGEON_SEED_SIZE];
    pigeon_options options = PIGEON_OPTIONS;
    pigeon_channels_options channels = PIGEON_CHANNELS_OPTIONS;
    must("options", pigeon_options_for_webrtc(&options));
    if (stalls)
        options.flags &= ~(uint32_t)PIGEON_AVOID_STALLS;
    seed[0] = number;
    must("new", pigeon_new(end, &options, seed));
    channels.role = number;
    channels.peer_max_message_size = 262144;
    if (by_channel)
        must("channels_start", pigeon_channels_start(end, &channels));
}

int main(int count, char **words) {
    pigeon_socket a = PIGEON_NO_HANDLE, b = PIGEON_NO_HANDLE;
    pigeon_channel_options plainly = PIGEON_CHANNEL_OPTIONS;
    pigeon_send_options options = PIGEON_SEND_OPTIONS;
    uint64_t now = 0;
    uint32_t channel = 0;
    if (count != 5)
        return 2;
    by_channel = strcmp(words[1], "channel") == 0;
    stalls = strcmp(words[1], "stalls") == 0;
    long all = atol(words[2]), size = atol(words[3]), each = atol(words[4]);
    uint8_t *payload = calloc(1, (size_t)size);
    make(&a, PIGEON_ROLE_CLIENT);
    make(&b, PIGEON_ROLE_SERVER);
    must("connect", pigeon_connect(&a));
    while (hear(&a, &b) + hear(&b, &a) > 0) {}
    if (by_channel)
        must("open", pigeon_channel_open(&a, &plainly, "", "", &channel));
    while (hear(&a, &b) + hear(&b, &a) > 0) {}
    for (long sent = 0; sent < all; sent += each) {
        now += 1000000;
        must("advance_time", pigeon_advance_time(&a, now));
        must("advance_time", pigeon_advance_time(&b, now));
        for (long i = 0; i < each; i++)
            if (by_channel)
                must("channel_send", pigeon_channel_send(&a, channel, PIGEON_CHANNEL_BINARY, payload, (size_t)size));
            else
                must("send", pigeon_send(&a, 0, 53, payload, (size_t)size, &options));
        while (hear(&a, &b) + hear(&b, &a) > 0) {}
    }
    if (messages != all)
        printf("%ld of %ld messages came\n", messages, all);
    pigeon_free(&a);
    pigeon_free(&b);
    free(payload);
    return messages == all ? 0 : 1;
}
