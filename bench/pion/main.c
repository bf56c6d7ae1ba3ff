/* SPDX-License-Identifier: Apache-2.0 */
/* An end of this library beside one of pion, `main PROGRAM`, over a pair of datagram sockets and in real time: each of them connects, with
 * and without zero checksums (RFC 9653) at either end, with packets lost or none. Each message comes back, byte for byte, and each packet's
 * checksum is what was agreed on. */
#define _POSIX_C_SOURCE 200809L
#include "shelfpigeon.h"
#include <poll.h>
#include <signal.h>
#include <stdbool.h>
#include <stdio.h>
#include <stdlib.h>
#include <string.h>
#include <sys/socket.h>
#include <sys/wait.h>
#include <time.h>
#include <unistd.h>

enum { OURS, THEIRS };
enum { INIT = 1, COOKIE_ECHO = 10 };
#define SECOND 1000000000u
#define LIMIT (60ull * SECOND)

struct run {
    bool connects;                        /* ours does, pion listens; or the other way round */
    bool takes_zero[2];                   /* each end accepts packets without a checksum */
    unsigned lost;                        /* of a hundred packets */
    pigeon_socket end;
    int wire;
    uint64_t start, random;
    size_t sent, came_back, zeros[2], packets[2];
    bool connected, greeted, agreed;
    bool closed;
};

static const size_t lengths[] = {1, 2, 1000, 1171, 1172, 5000, 65536, 262144, 3, 100000};
#define MESSAGES (sizeof lengths / sizeof *lengths)

static _Noreturn void wrong(const char *text) {
    printf("wrong: %s\n", text);
    exit(1);
}

static uint64_t nanos(void) {
    struct timespec t;
    clock_gettime(CLOCK_MONOTONIC, &t);
    return (uint64_t)t.tv_sec * SECOND + (uint64_t)t.tv_nsec;
}

static unsigned drawn(struct run *run) {
    run->random = run->random * 6364136223846793005u + 1442695040888963407u;
    return (unsigned)(run->random >> 33) % 100;
}

/* CRC32c of the packet with zeros in place of its checksum (RFC 9260, appendix A), as it stands in the packet. */
static uint32_t sum_of(const uint8_t *bytes, size_t length) {
    uint32_t sum = 0xffffffffu;
    for (size_t i = 0; i < length; i++) {
        sum ^= i >= 8 && i < 12 ? 0 : bytes[i];
        for (int bit = 0; bit < 8; bit++)
            sum = sum >> 1 ^ (sum & 1 ? 0x82f63b78u : 0);
    }
    return ~sum;
}

/* Whether a packet's checksum is one that RFC 9653 allows: the right one, or zero where the end that receives it accepts that, and the
 * packet has neither an INIT nor a COOKIE ECHO. */
static void look_at_checksum(struct run *run, int from, const uint8_t *bytes, size_t length) {
    uint32_t sum = (uint32_t)bytes[8] | (uint32_t)bytes[9] << 8 | (uint32_t)bytes[10] << 16 | (uint32_t)bytes[11] << 24;
    run->packets[from]++;
    if (sum == sum_of(bytes, length))
        return;
    if (sum != 0)
        wrong("a checksum");
    if (!run->takes_zero[1 - from] || bytes[12] == INIT || bytes[12] == COOKIE_ECHO)
        wrong("a packet without a checksum");
    run->zeros[from]++;
}

static uint8_t byte_at(size_t message, size_t place) { return (uint8_t)(place * 131 + message * 17 + place / 251); }

static void send_all(struct run *run) {
    static uint8_t bytes[262144];
    pigeon_send_options options = PIGEON_SEND_OPTIONS;
    while (run->connected && run->sent < MESSAGES) {
        size_t m = run->sent++;
        for (size_t i = 0; i < lengths[m]; i++)
            bytes[i] = byte_at(m, i);
        if (pigeon_send(&run->end, (uint16_t)m, 53, bytes, lengths[m], &options) != PIGEON_OK)
            wrong("send");
    }
}

static void take_message(struct run *run, const pigeon_message *message, const uint8_t *bytes) {
    if (message->stream == 7 && message->ppid == 51) {
        if (message->length != 5 || memcmp(bytes, "hello", 5) != 0)
            wrong("the greeting");
        run->greeted = true;
        return;
    }
    size_t m = message->stream;
    if (m >= MESSAGES || message->ppid != 53 || message->length != lengths[m])
        wrong("a message that comes back");
    for (size_t i = 0; i < lengths[m]; i++)
        if (bytes[i] != byte_at(m, i))
            wrong("a byte that comes back");
    run->came_back++;
}

static void take_all(struct run *run) {
    static uint8_t buffer[262144];
    pigeon_event event = PIGEON_EVENT;
    pigeon_message message;
    while (pigeon_next_message(&run->end, &message, buffer, sizeof buffer) == PIGEON_OK)
        take_message(run, &message, buffer);
    while (pigeon_poll_event(&run->end, &event, buffer, sizeof buffer) == PIGEON_OK) {
        if (event.kind == PIGEON_SEND_PACKET) {
            look_at_checksum(run, OURS, buffer, event.length);
            if (drawn(run) >= run->lost)
                (void)!send(run->wire, buffer, event.length, MSG_NOSIGNAL);
        } else if (event.kind == PIGEON_ON_CONNECTED) {
            pigeon_metrics metrics = PIGEON_METRICS;
            run->connected = true;
            run->agreed = pigeon_get_metrics(&run->end, &metrics) == PIGEON_OK && metrics.uses_zero_checksum;
        } else if (event.kind == PIGEON_ON_CLOSED) {
            run->closed = true;
        } else if (event.kind == PIGEON_ON_ABORTED) {
            wrong("the association is aborted");
        }
    }
}

/* Waits for a packet or the next timer, and hands the socket what is due. */
static void turn(struct run *run) {
    uint8_t bytes[65536];
    uint64_t due = UINT64_MAX, now = nanos() - run->start;
    pigeon_poll_timeout(&run->end, &due);
    uint64_t wait = due <= now ? 0 : (due - now) / 1000000 + 1;
    struct pollfd ready = {run->wire, POLLIN, 0};
    int count = poll(&ready, 1, (int)(wait < 1000 ? wait : 1000));
    if (pigeon_advance_time(&run->end, nanos() - run->start) != PIGEON_OK)
        wrong("advance_time");
    ssize_t length = count > 0 ? recv(run->wire, bytes, sizeof bytes, 0) : 0;
    if (length <= 0)
        return;
    look_at_checksum(run, THEIRS, bytes, (size_t)length);
    if (drawn(run) >= run->lost && pigeon_handle_input(&run->end, bytes, (size_t)length) != PIGEON_OK)
        wrong("handle_input");
}

/* Starts pion with the other end of the wire as its descriptor 3. */
static pid_t start_pion(struct run *run, const char *program) {
    int ends[2];
    if (socketpair(AF_UNIX, SOCK_DGRAM, 0, ends) != 0)
        wrong("no sockets");
    pid_t child = fork();
    if (child == 0) {
        dup2(ends[1], 3);
        execl(program, program, run->connects ? "listen" : "connect", run->takes_zero[THEIRS] ? "zero" : "crc32c", (char *)NULL);
        _exit(127);
    }
    close(ends[1]);
    run->wire = ends[0];
    return child;
}

static void open_ours(struct run *run) {
    pigeon_options options = PIGEON_OPTIONS;
    uint8_t seed[PIGEON_SEED_SIZE] = {0};
    pigeon_options_for_webrtc(&options);
    if (!run->takes_zero[OURS])
        options.zero_checksum_method = PIGEON_ZERO_CHECKSUM_NONE;
    memcpy(seed, &run->random, sizeof run->random);
    run->start = nanos();
    if (pigeon_new(&run->end, &options, seed) != PIGEON_OK)
        wrong("new");
    if (run->connects && pigeon_connect(&run->end) != PIGEON_OK)
        wrong("connect");
}

static void lead(struct run *run, const char *program) {
    pid_t child = start_pion(run, program);
    uint32_t rest = 0;
    open_ours(run);
    while (!run->closed && nanos() - run->start < LIMIT) {
        send_all(run);
        take_all(run);
        if (run->greeted && run->came_back == MESSAGES && pigeon_is_at_rest(&run->end, &rest) == PIGEON_OK && rest)
            pigeon_shutdown(&run->end);
        take_all(run);
        turn(run);
    }
    take_all(run);
    if (!run->closed)
        wrong("not closed after a minute");
    bool both = run->takes_zero[OURS] && run->takes_zero[THEIRS];
    bool announced = both || (run->takes_zero[OURS] && run->connects); /* an INIT ACK of ours announces it where the INIT did */
    if (run->agreed != both || (run->zeros[OURS] > 0) != both || (run->zeros[THEIRS] > 0) != announced)
        wrong("what was agreed on");
    pigeon_free(&run->end);
    close(run->wire);
    kill(child, SIGKILL);
    waitpid(child, NULL, 0);
}

int main(int count, char **words) {
    if (count != 2)
        return 2;
    for (unsigned variant = 0; variant < 16; variant++) {
        struct run run = {.connects = variant & 1, .takes_zero = {variant & 2, variant & 4}, .lost = variant & 8 ? 3 : 0, .random = variant + 1, .end = PIGEON_NO_HANDLE_INIT};
        printf("%s connects, zero checksums taken by %s, %u %% lost: ", run.connects ? "ours" : "pion",
               (const char *[]){"none", "ours", "pion", "both"}[variant >> 1 & 3], run.lost);
        fflush(stdout);
        lead(&run, words[1]);
        printf("%zu messages came back; %zu of %zu packets of ours and %zu of %zu of pion's without a checksum\n", run.came_back, run.zeros[OURS],
               run.packets[OURS], run.zeros[THEIRS], run.packets[THEIRS]);
    }
    return 0;
}
