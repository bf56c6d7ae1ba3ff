/* The link, the clock and the messages. */
#define _POSIX_C_SOURCE 200809L
#include "world.h"
#include <stdarg.h>
#include <stdio.h>
#include <stdlib.h>
#include <string.h>
#include <sys/time.h>

struct world *world;

/* What usrsctp asks of the clock. */
int gettimeofday(struct timeval *restrict moment, void *restrict zone) {
    uint64_t now = world == NULL ? 0 : world->now;
    (void)zone;
    moment->tv_sec = (time_t)(1000 + now / SECOND);
    moment->tv_usec = (suseconds_t)(now % SECOND / 1000);
    return 0;
}

static uint64_t mixed(uint64_t number) {
    uint64_t a = (number ^ (number >> 30)) * 0xbf58476d1ce4e5b9u;
    uint64_t b = (a ^ (a >> 27)) * 0x94d049bb133111ebu;
    return b ^ (b >> 31);
}

/* A number below the one given. */
uint64_t drawn(uint64_t below) {
    world->random += 0x9e3779b97f4a7c15u;
    return mixed(world->random) % below;
}

/* The random source of usrsctp, by the linker's --wrap. */
void __wrap_read_random(void *bytes, size_t length);
void __wrap_read_random(void *bytes, size_t length) {
    for (size_t i = 0; i < length; i++)
        ((uint8_t *)bytes)[i] = world == NULL ? (uint8_t)(i + 1) : (uint8_t)drawn(256);
}

void wrong(const char *format, ...) {
    va_list list;
    va_start(list, format);
    printf("at %llu ms: ", (unsigned long long)(world->now / MILLI));
    vprintf(format, list);
    printf("\n");
    va_end(list);
    fflush(stdout);
    _Exit(1);
}

void *grown(void *list, size_t count, size_t size, size_t *room) {
    if (count < *room)
        return list;
    *room = *room ? 2 * *room : 64;
    list = realloc(list, *room * size);
    if (list == NULL)
        wrong("no memory");
    return list;
}

/* ---- The link */

static void put_under_way(enum side to, const uint8_t *bytes, size_t length, uint64_t late) {
    struct world *w = world;
    uint8_t *copy = malloc(length ? length : 1);
    if (copy == NULL)
        wrong("no memory");
    memcpy(copy, bytes, length);
    w->packets = grown(w->packets, w->under_way, sizeof *w->packets, &w->room);
    uint64_t delay = w->setup.delay ? w->setup.delay : 5 * MILLI;
    w->packets[w->under_way++] = (struct packet){w->now + delay + late, w->told_packets++, to, length, copy};
}

void carry(enum side from, const uint8_t *bytes, size_t length) {
    struct world *w = world;
    enum side to = from == OURS ? THEIRS : OURS;
    uint64_t number = w->sent[from]++;
    bool is_one = w->setup.drops && from == w->setup.dropped_from && number == w->setup.dropped;
    bool is_lost = w->is_cut || is_one || drawn(100) < w->setup.lost;
    w->has_dropped |= is_one;
    if (length > 12)
        w->chunks[bytes[12]][from]++;
    if (w->is_loud)
        print_packet(is_lost ? "lost" : "sent", to, bytes, length);
    if (is_lost)
        return;
    put_under_way(to, bytes, length, drawn(100) < w->setup.late ? drawn(40) * MILLI : 0);
    if (drawn(100) < w->setup.twice)
        put_under_way(to, bytes, length, drawn(100) * MILLI);
}

/* The place of the packet that comes first; SIZE_MAX where none is under way. */
static size_t first_under_way(void) {
    size_t first = SIZE_MAX;
    for (size_t i = 0; i < world->under_way; i++) {
        const struct packet *p = &world->packets[i], *q = &world->packets[first == SIZE_MAX ? i : first];
        if (first == SIZE_MAX || p->moment < q->moment || (p->moment == q->moment && p->number < q->number))
            first = i;
    }
    return first;
}

static void hand_in(size_t place) {
    struct packet packet = world->packets[place];
    world->packets[place] = world->packets[--world->under_way];
    if (world->is_loud)
        print_packet("came", packet.to, packet.bytes, packet.length);
    if (packet.to == THEIRS)
        hand_to_theirs(packet.bytes, packet.length);
    else
        hand_to_ours(packet.bytes, packet.length);
    free(packet.bytes);
}

/* ---- Messages */

static uint8_t byte_of(size_t message, size_t place) { return (uint8_t)(message * 31 + place * 7 + place / 256); }

size_t add_message(enum side from, uint16_t stream, uint32_t length, bool unordered) {
    struct world *w = world;
    w->messages = grown(w->messages, w->count, sizeof *w->messages, &w->message_room);
    w->messages[w->count] = (struct message){
        .from = from, .stream = stream, .length = length, .unordered = unordered, .retransmissions = UINT32_MAX};
    return w->count++;
}

void take_message(enum side at, uint32_t stream, uint32_t ppid, const uint8_t *bytes, size_t length) {
    struct world *w = world;
    if (w->count <= ppid)
        wrong("a message %u that was never sent", ppid);
    struct message *m = &w->messages[ppid];
    if (m->from == at || m->stream != stream || m->length != length)
        wrong("message %u came on stream %u with %zu bytes", ppid, stream, length);
    for (size_t i = 0; i < length; i++)
        if (bytes[i] != byte_of(ppid, i))
            wrong("message %u differs at byte %zu", ppid, i);
    if (m->taken++)
        wrong("message %u came twice", ppid);
    if (!m->unordered) {
        size_t *last = &w->last_taken[at][stream];
        if (ppid + 1 <= *last)
            wrong("message %u came behind %zu", ppid, *last - 1);
        *last = ppid + 1;
    }
}

uint8_t *payload_of(size_t place) {
    uint8_t *bytes = malloc(world->messages[place].length);
    if (bytes == NULL)
        wrong("no memory");
    for (size_t i = 0; i < world->messages[place].length; i++)
        bytes[i] = byte_of(place, i);
    return bytes;
}

/* Offers what wasn't accepted yet, in order. */
static void offer_messages(void) {
    struct world *w = world;
    for (int side = OURS; side <= THEIRS; side++)
        for (size_t *next = &w->offered[side]; *next < w->count; ++*next) {
            struct message *m = &w->messages[*next];
            if ((int)m->from != side)
                continue;
            if (w->told[side].connected == 0 || (side == THEIRS && !is_theirs_open()))
                break;
            if (side == OURS ? !send_ours(*next) : !send_theirs(*next))
                break;
            m->accepted = true;
        }
}

bool is_settled(void) {
    return first_unsettled() == world->count;
}

size_t first_unsettled(void) {
    size_t place;
    for (place = 0; place < world->count; place++) {
        struct message *m = &world->messages[place];
        bool is_reliable = m->retransmissions == UINT32_MAX && m->lifetime == 0;
        bool may_be_missing = !is_reliable && (m->from == OURS || m->given_up);
        if (!m->accepted || (m->taken == 0 && !may_be_missing) || (m->from == OURS && m->ended == 0))
            break;
    }
    return place;
}

/* ---- Time */

static void pass_time(uint64_t until) {
    struct world *w = world;
    uint64_t due = next_of_ours(), next = due < until ? due : until;
    size_t first = first_under_way();
    next = w->next_tick < next ? w->next_tick : next;
    if (first != SIZE_MAX && w->packets[first].moment < next)
        next = w->packets[first].moment;
    w->now = next < w->now ? w->now : next;
    if (w->next_tick <= w->now) {
        w->next_tick += 10 * MILLI;
        tick_theirs(10);
    }
    tell_ours_time();
}

bool go(bool (*test)(void), uint64_t span) {
    struct world *w = world;
    uint64_t until = w->now + span;
    for (;;) {
        accept_theirs();
        offer_messages();
        take_from_ours();
        if (test())
            return true;
        size_t first = first_under_way();
        if (first != SIZE_MAX && w->packets[first].moment <= w->now)
            hand_in(first);
        else if (w->now < until)
            pass_time(until);
        else
            return false;
    }
}

static bool never(void) { return false; }

void wait_for(uint64_t span) { go(never, span); }

void open_world(struct setup setup) {
    static struct world made;
    memset(&made, 0, sizeof made);
    made.setup = setup;
    made.random = mixed(setup.seed + 1);
    made.next_tick = 10 * MILLI;
    made.is_loud = getenv("INTEROP_LOUD") != NULL;
    world = &made;
    start_theirs();
    open_ours(setup.seed);
}
