/* Two sockets through shelfpigeon.h, with no checksums: 1,000 messages of 1,000 bytes from one to the other, ten ahead. With an argument what is
 * handed out is copied, else it is lent. Says how many events were emitted and how many messages came. */
#include "shelfpigeon.h"
#include <stdio.h>

enum { ROUNDS = 100, AHEAD = 10, SIZE = 1000 };

static unsigned long events, messages;

static void hand_on(pigeon_socket *to, const pigeon_event *event, const uint8_t *bytes) {
    events++;
    if (event->kind == PIGEON_SEND_PACKET)
        pigeon_handle_input(to, bytes, event->length);
}

static int copied(pigeon_socket *from, pigeon_socket *to) {
    static uint8_t buffer[SIZE + 500];
    pigeon_event event = PIGEON_EVENT;
    pigeon_message message;
    unsigned long before = events;
    while (pigeon_poll_event(from, &event, buffer, sizeof buffer) == PIGEON_OK)
        hand_on(to, &event, buffer);
    while (pigeon_next_message(to, &message, buffer, sizeof buffer) == PIGEON_OK)
        messages++;
    return events > before;
}

static int lent(pigeon_socket *from, pigeon_socket *to) {
    const uint8_t *bytes;
    pigeon_event event = PIGEON_EVENT;
    pigeon_message message;
    unsigned long before = events;
    while (pigeon_borrow_event(from, &event, &bytes) == PIGEON_OK)
        hand_on(to, &event, bytes);
    while (pigeon_borrow_message(to, &message, &bytes) == PIGEON_OK)
        messages++;
    return events > before;
}

int main(int count, char **arguments) {
    static uint8_t payload[SIZE];
    pigeon_socket a = PIGEON_NO_HANDLE, b = PIGEON_NO_HANDLE;
    pigeon_send_options plainly = PIGEON_SEND_OPTIONS;
    pigeon_options options = PIGEON_OPTIONS;
    uint8_t seed[PIGEON_SEED_SIZE] = {1}, other[PIGEON_SEED_SIZE] = {2};
    int (*pass)(pigeon_socket *, pigeon_socket *) = count > 1 ? copied : lent;
    (void)arguments;
    pigeon_default_options(&options);
    options.checksum = PIGEON_CHECKSUM_ZERO;
    pigeon_new(&a, &options, seed);
    pigeon_new(&b, &options, other);
    pigeon_connect(&a);
    for (int round = 0; round <= ROUNDS; round++) {
        while (pass(&a, &b) + pass(&b, &a) > 0) {}
        for (int i = 0; i < AHEAD && round < ROUNDS; i++)
            pigeon_send(&a, 1, 53, payload, sizeof payload, &plainly);
    }
    pigeon_free(&a);
    pigeon_free(&b);
    printf("%lu events, %lu messages\n", events, messages);
}
