/* SPDX-License-Identifier: Apache-2.0 */
/* drain [--off] RUNS SEED: random runs of two sockets, each made by its seed alone, the first by SEED. For a while an adversary has the link: it
 * loses packets, gives them late, out of order and again, ends read or don't, streams are reset, and a socket goes on in another one's place.
 * Then the link is good, new packets are given in order, each end takes what is ready, and time goes to each timeout.
 *
 * A run is well where every message that was accepted came once, whole and in its order, or has a record that it was given up; and where both
 * ends come to rest, or close if one was shut down, with never ten minutes in which nothing changes; with the option within three minutes of the
 * link's being good, and a millisecond for each byte that is to come: a message longer than its window comes a packet every 200 ms. It isn't judged
 * where an end gave up after too many errors. Prints the seeds of the others, and with the option on, or of a single run, how their ends stand.
 *
 * The sockets have PIGEON_AVOID_STALLS, but with --off. Status 1: a run with it isn't well; or with --off all are, as if none was looked at. */
#include "shelfpigeon.h"
#include <stdbool.h>
#include <stdio.h>
#include <stdlib.h>
#include <string.h>

enum { MOST_MESSAGES = 512, LONGEST = 60000, STREAMS = 3, MOST_TURNS = 100000 };
static const uint64_t MS = 1000000, PATIENCE = UINT64_C(600000000000), LONGEST_DRAIN = UINT64_C(180000000000);

typedef struct packet {
    uint8_t *bytes;
    size_t length;
} packet;

typedef struct message {
    uint32_t stream, flags;
    size_t length;
    bool came, given_up;
} message;

typedef struct end {
    const char *name;
    pigeon_socket socket;
    pigeon_options options;
    packet *sent; /* all packets, of which those before `next` were given or are lost */
    size_t count, next, room;
    message messages[MOST_MESSAGES]; /* those that were accepted here */
    size_t accepted;
    size_t least[STREAMS]; /* the peer's ordered messages before this one are over */
    bool resetting[STREAMS];
    bool talks, reads, closed, aborted, exhausted;
} end;

static end a = {.name = "a"}, b = {.name = "b"};
static uint64_t now, state;
static const char *fault;
static unsigned long given_up, resets, handovers, shutdowns;

static uint64_t draw(uint64_t below) { /* xorshift64* */
    state ^= state >> 12;
    state ^= state << 25;
    state ^= state >> 27;
    return (state * UINT64_C(2685821657736338717) >> 16) % below;
}

static void is_wrong(const char *what) {
    if (!fault)
        fault = what;
}

static void must(const char *what, uint32_t answer) {
    if (answer != PIGEON_OK) {
        fprintf(stderr, "%s: %s\n", what, pigeon_answer_text(answer));
        exit(2);
    }
}

static void *allocated(void *bytes) {
    if (bytes)
        return bytes;
    fprintf(stderr, "no memory\n");
    exit(2);
}

/* ---- what an end emits, and what is ready there */

static void keep(end *from, const uint8_t *bytes, size_t length) {
    if (from->count == from->room) {
        from->room = 2 * from->room + 64;
        from->sent = allocated(realloc(from->sent, from->room * sizeof *from->sent));
    }
    packet *p = &from->sent[from->count++];
    p->bytes = allocated(malloc(length));
    p->length = length;
    memcpy(p->bytes, bytes, length);
}

static void on_reset(end *at, const uint8_t *bytes, size_t length) {
    for (size_t i = 0; i < length / 2; i++)
        if (pigeon_stream_at(bytes, i) < STREAMS)
            at->resetting[pigeon_stream_at(bytes, i)] = false;
}

static void take(end *at) {
    const uint8_t *bytes;
    pigeon_event event = PIGEON_EVENT;
    pigeon_given_up record;
    while (pigeon_borrow_event(&at->socket, &event, &bytes) == PIGEON_OK)
        switch (event.kind) {
        case PIGEON_SEND_PACKET: keep(at, bytes, event.length); break;
        case PIGEON_STREAMS_RESET_PERFORMED:
        case PIGEON_STREAMS_RESET_FAILED: on_reset(at, bytes, event.length); break;
        case PIGEON_ON_CLOSED: at->closed = true; break;
        case PIGEON_ON_ABORTED:
            at->closed = at->aborted = true;
            at->exhausted |= event.error == PIGEON_ERROR_TOO_MANY_RETRIES;
            break;
        default: break;
        }
    while (pigeon_next_given_up(&at->socket, &record) == PIGEON_OK)
        if (record.number < at->accepted) {
            at->messages[record.number].given_up = true;
            given_up++;
        } else
            is_wrong("a record names no message");
}

/* The payload of a message: its number, then a byte of it. */
static void came(end *at, end *from, const pigeon_message *head, const uint8_t *payload) {
    uint32_t number = UINT32_MAX;
    if (head->length >= sizeof number)
        memcpy(&number, payload, sizeof number);
    message *it = number < from->accepted ? &from->messages[number] : NULL;
    if (!it || head->stream != it->stream || head->length != it->length) {
        is_wrong("a message came that wasn't sent so");
        return;
    }
    for (size_t i = sizeof number; i < head->length; i++)
        if (payload[i] != (uint8_t)number) {
            is_wrong("a message came that wasn't sent so");
            break;
        }
    if (it->came)
        is_wrong("a message came twice");
    it->came = true;
    if (it->flags & PIGEON_UNORDERED)
        return;
    if (number < at->least[it->stream])
        is_wrong("an ordered message came too late");
    at->least[it->stream] = number + 1;
}

static void receive(end *at, end *from) {
    const uint8_t *payload;
    pigeon_message head;
    while (pigeon_borrow_message(&at->socket, &head, &payload) == PIGEON_OK)
        came(at, from, &head, payload);
}

static void give(end *from, end *to, size_t place) {
    must("handle_input", pigeon_handle_input(&to->socket, from->sent[place].bytes, from->sent[place].length));
    take(to);
}

/* ---- what owners call */

static void offer(end *at) {
    static uint8_t payload[LONGEST];
    uint32_t number = (uint32_t)at->accepted;
    pigeon_send_options options = PIGEON_SEND_OPTIONS;
    message it = {0};
    it.stream = (uint32_t)draw(STREAMS);
    it.length = 4 + draw(draw(3) ? 2000 : LONGEST - 3);
    if (number == MOST_MESSAGES)
        return;
    if (draw(4) == 0)
        options.flags |= PIGEON_UNORDERED;
    if (draw(6) == 0) {
        options.flags |= PIGEON_LIFETIME;
        options.lifetime = draw(2000) * MS;
    }
    if (draw(6) == 0) {
        options.flags |= PIGEON_MAX_RETRANSMISSIONS;
        options.max_retransmissions = (uint32_t)draw(3);
    }
    it.flags = options.flags;
    memset(payload, (int)(number & 255), it.length);
    memcpy(payload, &number, sizeof number);
    at->messages[number] = it;
    at->accepted++; /* a record of it may come with the call */
    if (pigeon_send(&at->socket, it.stream, 53, payload, it.length, &options) != PIGEON_OK)
        at->accepted--;
    take(at);
}

static bool is_connected(const end *at) {
    uint32_t phase;
    must("state", pigeon_state(&at->socket, &phase));
    return phase == PIGEON_CONNECTED;
}

static void reset(end *at) {
    uint32_t stream = (uint32_t)draw(STREAMS);
    if (is_connected(at) && pigeon_reset_stream(&at->socket, stream) == PIGEON_OK) {
        at->resetting[stream] = true;
        resets++;
    }
    take(at);
}

static void new_socket(end *at) {
    uint8_t seed[PIGEON_SEED_SIZE];
    for (size_t i = 0; i < sizeof seed; i++)
        seed[i] = (uint8_t)draw(256);
    at->socket = PIGEON_NO_HANDLE;
    must("new", pigeon_new(&at->socket, &at->options, seed));
    must("advance_time", pigeon_advance_time(&at->socket, now));
}

/* Another socket goes on in its place, where nothing stands in the way; at times all packets that are on their way to the peer are lost with it. */
static void hand_over(end *at, end *peer) {
    uint32_t readiness;
    size_t length = 0;
    receive(at, peer);
    take(at);
    must("readiness", pigeon_handover_readiness(&at->socket, &readiness));
    if (readiness != PIGEON_READY || !is_connected(at))
        return;
    if (pigeon_handover(&at->socket, &length, PIGEON_EMPTY, 0) != PIGEON_SHORT_BUFFER)
        is_wrong("a socket that is ready isn't handed over");
    uint8_t *record = allocated(malloc(length + 1));
    must("handover", pigeon_handover(&at->socket, &length, record, length));
    take(at);
    pigeon_free(&at->socket);
    at->closed = false;
    new_socket(at);
    if (pigeon_restore(&at->socket, record, length) != PIGEON_OK)
        is_wrong("a record isn't taken up");
    free(record);
    if (draw(2))
        at->next = at->count;
    take(at);
    handovers++;
}

/* ---- time */

static uint64_t moment_of(const end *at) {
    uint64_t nanos;
    must("poll_timeout", pigeon_poll_timeout(&at->socket, &nanos));
    return nanos;
}

static uint64_t next_moment(void) {
    uint64_t of_a = moment_of(&a), of_b = moment_of(&b);
    return of_a < of_b ? of_a : of_b;
}

static void advance(end *at) {
    must("advance_time", pigeon_advance_time(&at->socket, now));
    take(at);
}

/* ---- a run */

static void choose(end *at, uint32_t flags, uint32_t most_errors, uint64_t interval) {
    static const uint32_t windows[] = {1500, 3000, 20000, 1 << 17, 5 << 20};
    pigeon_options options = PIGEON_OPTIONS;
    must("options", pigeon_default_options(&options));
    options.checksum = PIGEON_CHECKSUM_ZERO;
    options.flags = flags | PIGEON_HANDOVER_WITH_OUTSTANDING_DATA;
    options.mtu = draw(3) ? options.mtu : 400;
    options.max_receiver_window_buffer_size = windows[draw(5)];
    options.default_stream_buffered_amount_low_threshold = (uint32_t)draw(2) * 1000;
    options.max_retransmissions = most_errors;
    options.max_burst = draw(4) ? options.max_burst : 1 + (int32_t)draw(3);
    if (!interval)
        options.heartbeat_interval = 0;
    at->options = options;
    at->talks = draw(3) != 0;
    at->reads = draw(2);
    new_socket(at);
}

static void begin(bool avoids, uint64_t seed) {
    state = seed * UINT64_C(0x9E3779B97F4A7C15) + 1;
    state += state == 0;
    for (int i = 0; i < 8; i++)
        draw(2);
    now = 0;
    fault = NULL;
    uint32_t flags = avoids ? PIGEON_AVOID_STALLS : 0, most_errors = draw(2) ? PIGEON_UNLIMITED : 10;
    flags |= draw(8) ? PIGEON_PARTIAL_RELIABILITY : 0;
    flags |= draw(2) ? PIGEON_MESSAGE_INTERLEAVING : 0;
    uint64_t interval = draw(2);
    choose(&a, flags, most_errors, interval);
    choose(&b, flags, most_errors, interval);
    a.talks |= !b.talks;
    for (uint64_t early = draw(3); early > 0; early--)
        offer(draw(2) ? &a : &b);
    must("connect", pigeon_connect(&a.socket));
    take(&a);
}

static void pass_time(void) {
    uint64_t moment = next_moment();
    now = draw(2) && moment != UINT64_MAX && moment > now ? moment : now + draw(300) * MS;
    advance(&a);
    advance(&b);
}

/* What the adversary does next, and what owners do meanwhile. */
static void disturb(end *x, end *y) {
    switch (draw(12)) {
    case 0:
    case 1:
        if (x->talks)
            offer(x);
        break;
    case 2:
    case 3:
    case 4:
    case 5:
        for (uint64_t i = 1 + draw(6); i > 0 && x->next < x->count; i--)
            give(x, y, x->next++);
        break;
    case 6: /* lost */
        for (uint64_t i = draw(8) ? 1 : x->count; i > 0 && x->next < x->count; i--)
            x->next++;
        break;
    case 7: /* again, or before others */
        if (x->count > 0)
            give(x, y, draw(x->count));
        break;
    case 8:
        if (x->reads)
            receive(x, y);
        break;
    case 9:
        if (draw(6) == 0)
            reset(x);
        break;
    case 10:
        if (draw(6) == 0)
            hand_over(x, y);
        break;
    default: pass_time();
    }
}

/* What an owner does in a turn. All that came goes in, in order. What is ready is taken before and behind each packet: one that ends the
 * association leaves none. */
static void turn(end *at, end *from) {
    size_t until = from->count;
    advance(at);
    receive(at, from);
    while (from->next < until) {
        give(from, at, from->next++);
        receive(at, from);
    }
}

static size_t unacknowledged(const end *at) {
    pigeon_metrics metrics = PIGEON_METRICS;
    return pigeon_get_metrics(&at->socket, &metrics) == PIGEON_OK ? metrics.unack_data_count : 0;
}

/* Two numbers of an end differ where it came on. */
static uint64_t mark_of(const end *at) {
    uint64_t mark = unacknowledged(at) + (at->closed ? 0 : UINT64_C(1) << 40);
    for (size_t i = 0; i < at->accepted; i++)
        mark += (uint64_t)(at->messages[i].came + at->messages[i].given_up) << 20;
    for (size_t i = 0; i < STREAMS; i++)
        mark += at->resetting[i] ? UINT64_C(1) << 50 : 0;
    return mark;
}

static bool rests(const end *at) {
    uint32_t rest;
    must("is_at_rest", pigeon_is_at_rest(&at->socket, &rest));
    for (size_t i = 0; i < STREAMS; i++)
        if (at->resetting[i])
            return false;
    return rest == 1 && is_connected(at);
}

static bool is_over(bool shuts) {
    if (fault || a.exhausted || b.exhausted)
        return true;
    if (a.aborted || b.aborted || ((a.closed || b.closed) && !shuts))
        is_wrong("ends by itself");
    if (fault || shuts)
        return fault || (a.closed && b.closed);
    return rests(&a) && rests(&b) && a.next == a.count && b.next == b.count;
}

static void forget(end *at) {
    for (size_t i = 0; i < at->count; i++)
        free(at->sent[i].bytes);
    at->count = at->next = 0;
}

static bool is_lost(const message *it) {
    return !it->came && !it->given_up;
}

static uint64_t bytes_to_come(const end *at) {
    uint64_t bytes = 0;
    for (size_t i = 0; i < at->accepted; i++)
        bytes += is_lost(&at->messages[i]) ? at->messages[i].length : 0;
    return bytes;
}

static void drain(bool avoids, bool shuts) {
    uint64_t until = now + LONGEST_DRAIN + (bytes_to_come(&a) + bytes_to_come(&b)) * MS, since = now, of_a = 0, of_b = 0;
    unsigned long turns = 0;
    for (;;) {
        turn(&a, &b);
        turn(&b, &a);
        if (is_over(shuts))
            return;
        if (mark_of(&a) != of_a || mark_of(&b) != of_b) {
            of_a = mark_of(&a);
            of_b = mark_of(&b);
            since = now;
            turns = 0;
        }
        if (turns++ == MOST_TURNS)
            is_wrong("turns for ever");
        if (a.next < a.count || b.next < b.count)
            continue;
        forget(&a);
        forget(&b);
        uint64_t moment = next_moment();
        if (moment == UINT64_MAX || (moment > since && moment - since > PATIENCE))
            is_wrong("stands still");
        if (avoids && moment > until)
            is_wrong("is slow");
        now = moment > now && !fault ? moment : now;
    }
}

static void look_for_losses(const end *at) {
    for (size_t i = 0; i < at->accepted; i++)
        if (is_lost(&at->messages[i]))
            is_wrong("a message is lost");
}

static bool shut_down(end *at) {
    if (!is_connected(at))
        return false;
    must("shutdown", pigeon_shutdown(&at->socket));
    take(at);
    shutdowns++;
    return true;
}

/* Answers whether an end gave up: then nothing is lost by that. */
static bool run(bool avoids, uint64_t seed) {
    begin(avoids, seed);
    for (uint64_t steps = 20 + draw(300); steps > 0 && !a.closed && !b.closed; steps--) {
        bool is_a = draw(2);
        disturb(is_a ? &a : &b, is_a ? &b : &a);
    }
    if (draw(3) == 0)
        hand_over(&a, &b);
    if (draw(3) == 0)
        hand_over(&b, &a);
    uint64_t who = draw(8); /* 1 and 3: a, 2 and 3: b; above: none */
    bool shuts = (who == 1 || who == 3) && shut_down(&a);
    shuts |= (who == 2 || who == 3) && shut_down(&b);
    drain(avoids, shuts);
    if (a.exhausted || b.exhausted)
        return true;
    look_for_losses(&a);
    look_for_losses(&b);
    return false;
}

/* ---- what is told */

static void tell(const end *at) {
    size_t bytes, ready = 0, arrived = 0, gone = 0, lost = at->accepted;
    pigeon_metrics metrics = PIGEON_METRICS;
    uint32_t phase = 0;
    pigeon_state(&at->socket, &phase);
    for (size_t i = at->accepted; i-- > 0;) {
        arrived += at->messages[i].came;
        gone += at->messages[i].given_up;
        lost = is_lost(&at->messages[i]) ? i : lost;
    }
    printf("  %s: window %u, mtu %u, flags %u; %s; %zu messages accepted, %zu came, %zu given up", at->name,
        at->options.max_receiver_window_buffer_size, at->options.mtu, at->options.flags, pigeon_state_text(phase), at->accepted, arrived, gone);
    if (lost < at->accepted)
        printf("; not there: message %zu of stream %u, %zu bytes, flags %u", lost, at->messages[lost].stream, at->messages[lost].length,
            at->messages[lost].flags);
    printf("\n    waiting:");
    for (uint32_t stream = 0; stream < STREAMS; stream++)
        if (pigeon_buffered_amount(&at->socket, stream, &bytes) == PIGEON_OK)
            printf(" %zu bytes of stream %u%s,", bytes, stream, at->resetting[stream] ? ", which is being reset" : "");
    if (pigeon_get_metrics(&at->socket, &metrics) == PIGEON_OK)
        printf(" %zu fragments, a window of %u at the peer,", metrics.unack_data_count, metrics.peer_rwnd_bytes);
    pigeon_messages_ready_count(&at->socket, &ready);
    printf(" %zu ready messages; ", ready);
    if (moment_of(at) == UINT64_MAX)
        printf("no timer runs\n");
    else
        printf("a timer runs until %.3f s, at %.3f s\n", (double)moment_of(at) / 1e9, (double)now / 1e9);
}

static void let_go(end *at) {
    const char *name = at->name;
    forget(at);
    free(at->sent);
    pigeon_free(&at->socket);
    memset(at, 0, sizeof *at);
    at->name = name;
}

int main(int count, char **words) {
    bool avoids = count < 2 || strcmp(words[1], "--off") != 0;
    int first = avoids ? 1 : 2;
    if (count != first + 2) {
        fprintf(stderr, "drain [--off] RUNS SEED\n");
        return 2;
    }
    unsigned long runs = strtoul(words[first], NULL, 10), faults = 0, ended = 0;
    uint64_t seed = strtoull(words[first + 1], NULL, 10);
    for (unsigned long i = 0; i < runs; i++) {
        ended += run(avoids, seed + i);
        if (fault) {
            printf("seed %llu: %s\n", (unsigned long long)(seed + i), fault);
            faults++;
        }
        if (fault && (avoids || runs == 1)) {
            tell(&a);
            tell(&b);
        }
        let_go(&a);
        let_go(&b);
        fflush(stdout);
    }
    printf("%lu of %lu runs stand still or lose, %lu ended by errors; ", faults, runs, ended);
    printf("%lu messages given up, %lu resets, %lu handovers, %lu shutdowns\n", given_up, resets, handovers, shutdowns);
    return avoids ? faults > 0 : faults == 0;
}
