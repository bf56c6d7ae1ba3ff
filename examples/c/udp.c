/* SPDX-License-Identifier: Apache-2.0 */
/* A chat over UDP on the loopback (UDP encapsulation as RFC 6951): `udp listen`, and in another terminal `udp connect`. Lines that are
 * typed go to the other end; the end of the input shuts the association down, once all has arrived. On a network that strangers reach
 * SCTP belongs under DTLS. */
#define _POSIX_C_SOURCE 200809L
#include "shelfpigeon.h"
#include <arpa/inet.h>
#include <poll.h>
#include <stdio.h>
#include <stdlib.h>
#include <string.h>
#include <sys/socket.h>
#include <time.h>
#include <unistd.h>

static uint64_t nanos(void) {
    struct timespec t;
    clock_gettime(CLOCK_MONOTONIC, &t);
    return (uint64_t)t.tv_sec * 1000000000u + (uint64_t)t.tv_nsec;
}

static struct sockaddr_in loopback(uint16_t port) {
    struct sockaddr_in address;
    memset(&address, 0, sizeof address);
    address.sin_family = AF_INET;
    address.sin_port = htons(port);
    address.sin_addr.s_addr = htonl(INADDR_LOOPBACK);
    return address;
}

/* Sends the packets that wait, and prints the other events and the messages. It comes behind each packet: messages go with their association,
 * which the next one may end. Events and messages are lent, and so may be of any length. Answers whether the association goes on. */
static int take_all(pigeon_socket *end, int wire, const struct sockaddr_in *peer) {
    const uint8_t *bytes;
    pigeon_event event = PIGEON_EVENT;
    pigeon_message message;
    pigeon_given_up record;
    int goes_on = 1;
    while (pigeon_borrow_event(end, &event, &bytes) == PIGEON_OK) {
        if (event.kind == PIGEON_SEND_PACKET) {
            /* a packet that the network refuses is lost: it is sent again in time */
            (void)!sendto(wire, bytes, event.length, 0, (const struct sockaddr *)peer, sizeof *peer);
        } else if (event.kind == PIGEON_ON_CONNECTED) {
            fprintf(stderr, "connected\n");
        } else if (event.kind == PIGEON_ON_CLOSED || event.kind == PIGEON_ON_ABORTED) {
            fprintf(stderr, "%s\n", pigeon_event_text(event.kind));
            goes_on = 0;
        }
    }
    while (pigeon_borrow_message(end, &message, &bytes) == PIGEON_OK) {
        fwrite(bytes, 1, message.length, stdout);
        fflush(stdout);
    }
    while (pigeon_next_given_up(end, &record) == PIGEON_OK) {} /* they are kept until they are taken */
    return goes_on;
}

/* Shuts the association down where nothing is queued and all has arrived, since a shutdown waits for what is in flight alone. Answers
 * whether the association goes on. */
static int shut_down(pigeon_socket *end) {
    uint32_t rest, state = PIGEON_CLOSED;
    if (pigeon_state(end, &state) == PIGEON_OK && state == PIGEON_CONNECTED && pigeon_is_at_rest(end, &rest) == PIGEON_OK && rest)
        pigeon_shutdown(end);
    return pigeon_state(end, &state) == PIGEON_OK && state != PIGEON_CLOSED;
}

int main(int count, char **words) {
    if (count != 2 || (strcmp(words[1], "listen") != 0 && strcmp(words[1], "connect") != 0)) {
        fprintf(stderr, "usage: udp listen|connect\n");
        return 2;
    }
    int connects = strcmp(words[1], "connect") == 0, reads = 1, goes_on = 1;
    struct sockaddr_in own = loopback(connects ? 9900 : 9899), peer = loopback(connects ? 9899 : 9900);
    int wire = socket(AF_INET, SOCK_DGRAM, 0);
    if (wire < 0 || bind(wire, (const struct sockaddr *)&own, sizeof own) != 0) {
        perror("bind");
        return 1;
    }
    pigeon_socket end = PIGEON_NO_HANDLE;
    pigeon_options options = PIGEON_OPTIONS;
    pigeon_send_options plainly = PIGEON_SEND_OPTIONS;
    uint8_t seed[PIGEON_SEED_SIZE];
    uint64_t start = nanos();
    FILE *random = fopen("/dev/urandom", "rb");
    if (random == NULL || fread(seed, sizeof seed, 1, random) != 1)
        return 1;
    fclose(random);
    pigeon_default_options(&options);
    if (pigeon_new(&end, &options, seed) != PIGEON_OK)
        return 1;
    pigeon_advance_time(&end, nanos() - start);
    if (connects)
        pigeon_connect(&end);
    while (goes_on) {
        uint8_t bytes[65536];
        uint64_t due = UINT64_MAX;
        size_t room = 0; /* for a line that is read only where it will be taken */
        goes_on = take_all(&end, wire, &peer);
        pigeon_poll_timeout(&end, &due);
        pigeon_send_queue_room(&end, &room);
        struct pollfd ready[2] = {{wire, POLLIN, 0}, {reads && room >= sizeof bytes ? STDIN_FILENO : -1, POLLIN, 0}};
        int count_ready = goes_on ? poll(ready, 2, pigeon_wait(due, nanos() - start)) : 0;
        if (pigeon_advance_time(&end, nanos() - start) != PIGEON_OK) /* first: the calls below go by it */
            break;
        if (count_ready > 0) {
            if (ready[0].revents & POLLIN) {
                ssize_t length = recv(wire, bytes, sizeof bytes, 0);
                if (length > 0)
                    pigeon_handle_input(&end, bytes, (size_t)length);
            }
            if (ready[1].revents & (POLLIN | POLLHUP)) {
                ssize_t length = read(STDIN_FILENO, bytes, sizeof bytes);
                if (length > 0)
                    pigeon_send(&end, 0, 51, bytes, (size_t)length, &plainly);
                else
                    reads = 0;
            }
        }
        if (!reads && goes_on && !shut_down(&end)) {
            take_all(&end, wire, &peer);
            goes_on = 0;
        }
    }
    pigeon_free(&end);
    close(wire);
    return 0;
}
