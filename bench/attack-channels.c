/* SPDX-License-Identifier: Apache-2.0 */
/* attack-channels KIND SIZE COUNT LAST: one end with data channels whose peer, that knows its tag, opens COUNT of them and then makes a packet of up
 * to SIZE bytes, which is handed in where LAST is 1. Prints the processor nanoseconds that this took, how many bytes the packet has, how many more are
 * kept behind it, and how many behind the openings. */
#define _POSIX_C_SOURCE 200809L
#include "shelfpigeon.h"
#include <malloc.h>
#include <stdio.h>
#include <stdlib.h>
#include <string.h>
#include <time.h>

enum { DATA = 0, ABORT = 6, RE_CONFIG = 130, HEADER = 12, OPENING = 50, PART = 54 };
static uint8_t packet[65536];
static size_t length;
static uint32_t tag, first_tsn, sent; /* of the peer: the tag that its packets carry, its first TSN, how many fragments it sent */

static void must(const char *what, uint32_t answer) {
    if (answer == PIGEON_OK)
        return;
    fprintf(stderr, "%s: %s\n", what, pigeon_answer_text(answer));
    exit(1);
}

static uint32_t crc32c(const uint8_t *bytes, size_t count) {
    uint32_t sum = 0xFFFFFFFF;
    for (size_t i = 0; i < count; i++) {
        sum ^= bytes[i];
        for (int bit = 0; bit < 8; bit++)
            sum = sum >> 1 ^ (sum & 1 ? 0x82F63B78 : 0);
    }
    return ~sum;
}

static void put16(uint32_t number) {
    packet[length++] = (uint8_t)(number >> 8);
    packet[length++] = (uint8_t)number;
}

static void put32(uint32_t number) {
    put16(number >> 16);
    put16(number & 0xFFFF);
}

static uint32_t get32(const uint8_t *bytes) {
    return (uint32_t)bytes[0] << 24 | (uint32_t)bytes[1] << 16 | (uint32_t)bytes[2] << 8 | bytes[3];
}

static void begin(void) {
    length = 0;
    put16(5000);
    put16(5000);
    put32(tag);
    put32(0);
}

static void pad(void) {
    while (length % 4)
        packet[length++] = 0;
}

static void put_data(uint32_t stream, uint32_t ppid, const uint8_t *payload, size_t size) {
    put16(DATA << 8 | 3);
    put16(16 + (uint32_t)size);
    put32(first_tsn + sent++);
    put16(stream);
    put16(0);
    put32(ppid);
    memcpy(packet + length, payload, size);
    length += size;
    pad();
}

/* A request to reset so many streams, which follow, or where there are none all. */
static void put_request(uint32_t number, uint32_t streams) {
    put16(RE_CONFIG << 8);
    put16(20 + 2 * streams);
    put16(13);
    put16(16 + 2 * streams);
    put32(first_tsn + number);
    put32(0);
    put32(first_tsn + sent - 1);
}

/* A request to reset so many streams: the odd ones. */
static void put_resets(uint32_t streams) {
    put_request(0, streams);
    for (uint32_t i = 0; i < streams; i++)
        put16(2 * i + 1);
    pad();
}

/* A request to reset all streams, or one. */
static void put_reset(uint32_t number, int is_all, uint32_t stream) {
    put_request(number, !is_all);
    if (is_all)
        return;
    put16(stream);
    pad();
}

static void hand_in(pigeon_socket *end) {
    uint32_t sum = crc32c(packet, length);
    for (int i = 0; i < 4; i++)
        packet[8 + i] = (uint8_t)(sum >> 8 * i);
    must("handle_input", pigeon_channels_handle_input(end, packet, length));
}

/* Takes what the end hands out, and gives its packets to the other one, if there is one. */
static int take(pigeon_socket *end, pigeon_socket *other) {
    const uint8_t *bytes;
    pigeon_event event = PIGEON_EVENT;
    int packets = 0;
    while (pigeon_channels_borrow_event(end, &event, &bytes) == PIGEON_OK)
        if (event.kind == PIGEON_SEND_PACKET && other != NULL) {
            must("handle_input", pigeon_handle_input(other, bytes, event.length));
            packets++;
        }
    return packets;
}

static int take_of_peer(pigeon_socket *peer, pigeon_socket *end) {
    const uint8_t *bytes;
    pigeon_event event = PIGEON_EVENT;
    int packets = 0;
    while (pigeon_borrow_event(peer, &event, &bytes) == PIGEON_OK)
        if (event.kind == PIGEON_SEND_PACKET) {
            if (bytes[HEADER] == 1) /* INIT */
                first_tsn = get32(bytes + HEADER + 16);
            else
                tag = get32(bytes + 4);
            must("handle_input", pigeon_channels_handle_input(end, bytes, event.length));
            packets++;
        }
    return packets;
}

static void make(pigeon_socket *end, int has_channels) {
    static uint8_t seed[PIGEON_SEED_SIZE];
    pigeon_options options = PIGEON_OPTIONS;
    pigeon_channels_options channels = PIGEON_CHANNELS_OPTIONS;
    must("options", pigeon_default_options(&options));
    seed[0]++;
    must("new", pigeon_new(end, &options, seed));
    if (has_channels)
        must("channels_start", pigeon_channels_start(end, &channels));
}

static const uint8_t opening[12] = {3, 0, 1, 0};

/* One chunk of the attack, the number of which this is; streams of openings are odd, since the end is DTLS's client. */
static void put_chunk(const char *kind, uint32_t number, uint32_t count) {
    static const uint8_t bytes[1000];
    if (strcmp(kind, "resets-of-all") == 0)
        put_reset(number, 1, 0);
    else if (strcmp(kind, "resets-by-turns") == 0)
        put_reset(number, (int)(number % 2), 2 * (number % count) + 1);
    else if (strcmp(kind, "resets-of-one") == 0)
        put_reset(number, 0, 2 * (number % count) + 1);
    else if (strcmp(kind, "openings") == 0)
        put_data(2 * (count + number) + 1, OPENING, opening, sizeof opening);
    else if (strcmp(kind, "openings-again") == 0)
        put_data(1, OPENING, opening, sizeof opening);
    else if (strcmp(kind, "openings-of-own") == 0)
        put_data(2 * number, OPENING, opening, sizeof opening);
    else if (strcmp(kind, "openings-malformed") == 0)
        put_data(2 * (count + number) + 1, OPENING, opening, 3);
    else if (strcmp(kind, "messages") == 0)
        put_data(1, 53, bytes, 1);
    else if (strcmp(kind, "messages-without-a-channel") == 0)
        put_data(2, 53, bytes, 1);
    else if (strcmp(kind, "unknown-messages") == 0)
        put_data(1, 99, bytes, 1);
    else if (strcmp(kind, "parts") == 0)
        put_data(2 * (number % count) + 1, PART, bytes, sizeof bytes);
    else {
        fprintf(stderr, "there is no kind %s\n", kind);
        exit(2);
    }
}

static void fill(const char *kind, size_t size, uint32_t count) {
    begin();
    if (strcmp(kind, "end") == 0) {
        put16(ABORT << 8);
        put16(4);
        return;
    }
    if (strcmp(kind, "resets-of-many") == 0) {
        put_resets((uint32_t)(size - HEADER - 20) / 2);
        return;
    }
    size_t most = strcmp(kind, "parts") == 0 ? 1016 : 28; /* bytes of a chunk */
    for (uint32_t number = 0; length + most <= size; number++)
        put_chunk(kind, number, count);
}

int main(int words, char **word) {
    pigeon_socket end = PIGEON_NO_HANDLE, peer = PIGEON_NO_HANDLE;
    struct timespec before, after;
    if (words != 5)
        return 2;
    size_t size = (size_t)atol(word[2]);
    uint32_t count = (uint32_t)atol(word[3]);
    make(&end, 1);
    make(&peer, 0);
    must("connect", pigeon_connect(&peer));
    while (take_of_peer(&peer, &end) + take(&end, &peer) > 0) {}
    size_t at_first = mallinfo2().uordblks;
    for (uint32_t opened = 0; opened < count;) {
        begin();
        for (; opened < count && length < 60000; opened++)
            put_data(2 * opened + 1, OPENING, opening, sizeof opening);
        hand_in(&end);
        take(&end, NULL);
    }
    fill(word[1], size, count);
    size_t opened = mallinfo2().uordblks;
    if (atoi(word[4])) {
        clock_gettime(CLOCK_PROCESS_CPUTIME_ID, &before);
        hand_in(&end);
        clock_gettime(CLOCK_PROCESS_CPUTIME_ID, &after);
        long long took = (after.tv_sec - before.tv_sec) * 1000000000ll + after.tv_nsec - before.tv_nsec;
        printf("%lld %zu %zd %zd\n", took, length, (ssize_t)(mallinfo2().uordblks - opened), (ssize_t)(opened - at_first));
    }
    pigeon_free(&end);
    pigeon_free(&peer);
    return 0;
}
