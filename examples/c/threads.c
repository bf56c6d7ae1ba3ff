/* SPDX-License-Identifier: Apache-2.0 */
/* Threads with sockets of their own, which one thread makes, another leads, and the first frees. For ThreadSanitizer. */
#include "shelfpigeon.h"
#include <pthread.h>
#include <stdio.h>
#include <stdlib.h>
#include <string.h>

enum { THREADS = 8, MESSAGES = 200 };

typedef struct pair {
    pigeon_socket a, b;
    int taken;
} pair;

static void must(const char *what, uint32_t answer) {
    if (answer != PIGEON_OK) {
        fprintf(stderr, "%s: %u\n", what, (unsigned)answer);
        exit(1);
    }
}

/* A seed that anyone can foresee, for an example alone: a product takes it from the system's random source. */
static const uint8_t *seed_of(uint8_t number) {
    static uint8_t seed[PIGEON_SEED_SIZE];
    seed[0] = number;
    return seed;
}

/* Takes the messages that are ready, and counts those that are as they were sent; and the records of those that were given up. */
static void take_messages(pigeon_socket *end, int *taken) {
    const uint8_t *payload;
    pigeon_message message;
    pigeon_given_up record;
    while (pigeon_borrow_message(end, &message, &payload) == PIGEON_OK)
        *taken += message.length == 9 && memcmp(payload, "a message", 9) == 0;
    while (pigeon_next_given_up(end, &record) == PIGEON_OK) {}
}

/* Takes all that a socket emits, and hands its packets to the other end, whose messages are taken behind each. Answers how many there were. */
static int take_packets(pigeon_socket *from, pigeon_socket *to, int *taken) {
    const uint8_t *bytes;
    pigeon_event event = PIGEON_EVENT;
    int packets = 0;
    while (pigeon_borrow_event(from, &event, &bytes) == PIGEON_OK)
        if (event.kind == PIGEON_SEND_PACKET) {
            must("handle_input", pigeon_handle_input(to, bytes, event.length));
            take_messages(to, taken);
            packets++;
        }
    return packets;
}

static void *lead(void *given) {
    pair *ends = given;
    pigeon_send_options plainly = PIGEON_SEND_OPTIONS;
    must("connect", pigeon_connect(&ends->a));
    for (uint64_t sent = 0; sent < MESSAGES; sent++) {
        must("advance_time", pigeon_advance_time(&ends->a, sent * 1000000));
        must("advance_time", pigeon_advance_time(&ends->b, sent * 1000000));
        must("send", pigeon_send(&ends->a, 1, 51, (const uint8_t *)"a message", 9, &plainly));
        while (take_packets(&ends->a, &ends->b, &ends->taken) + take_packets(&ends->b, &ends->a, &ends->taken) > 0) {}
    }
    return NULL;
}

int main(void) {
    static pair pairs[THREADS];
    pthread_t threads[THREADS];
    pigeon_options options = PIGEON_OPTIONS;
    pigeon_default_options(&options);
    for (uint8_t i = 0; i < THREADS; i++) {
        must("new", pigeon_new(&pairs[i].a, &options, seed_of((uint8_t)(2 * i))));
        must("new", pigeon_new(&pairs[i].b, &options, seed_of((uint8_t)(2 * i + 1))));
        if (pthread_create(&threads[i], NULL, lead, &pairs[i]) != 0)
            return 1;
    }
    for (int i = 0; i < THREADS; i++) {
        pthread_join(threads[i], NULL);
        pigeon_free(&pairs[i].a);
        pigeon_free(&pairs[i].b);
        if (pairs[i].taken != MESSAGES) {
            printf("thread %d took %d messages\n", i, pairs[i].taken);
            return 1;
        }
    }
    printf("%d threads, %d messages each\n", THREADS, MESSAGES);
}
