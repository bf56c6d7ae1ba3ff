/* A socket of ours and one of usrsctp over a link in memory, in virtual time. */
#ifndef WORLD_H
#define WORLD_H

#include <stdbool.h>
#include <stddef.h>
#include <stdint.h>

enum side { OURS, THEIRS, BOTH };

#define MILLI 1000000ull
#define SECOND 1000000000ull
#define STREAMS 64

/* What an end emitted; of resets the streams are counted. */
struct told {
    unsigned connected, closed, aborted, restarted, asked, reset, was_reset, denied, errors;
};

/* A message, whose place in the list is its protocol identifier. */
struct message {
    enum side from;
    uint16_t stream;
    uint32_t length;
    bool unordered, accepted, given_up, delivered;
    uint32_t retransmissions; /* UINT32_MAX: no limit */
    uint64_t lifetime;        /* in nanoseconds; 0: none */
    unsigned taken, ended;
};

struct packet {
    uint64_t moment, number;
    enum side to;
    size_t length;
    uint8_t *bytes;
};

/* How a world is set up. What is zero is plain. */
struct setup {
    uint64_t seed;
    bool interleaves, crosses; /* crosses: the checksum is none, by RFC 9653 */
    unsigned lost, twice, late; /* of a hundred packets */
    uint64_t delay;             /* from one end to the other; 5 ms where it is 0 */
    bool drops;                 /* one packet alone: */
    enum side dropped_from;
    uint64_t dropped;           /* its number among those of its end */
};

struct world {
    struct setup setup;
    uint64_t now, next_tick, told_packets, random, chunks[256][2], sent[2];
    bool is_cut, has_dropped, is_loud;
    bool bears_aborts; /* an abort is what is tried */
    struct packet *packets;
    size_t under_way, room;
    struct told told[2];
    struct message *messages;
    size_t count, message_room, offered[2], last_taken[2][STREAMS];
};

extern struct world *world;

/* Ends the program, with what is wrong. */
_Noreturn void wrong(const char *format, ...) __attribute__((format(printf, 1, 2)));

void *grown(void *list, size_t count, size_t size, size_t *room);
uint64_t drawn(uint64_t below);
void open_world(struct setup setup);

/* An end sends a packet. */
void carry(enum side from, const uint8_t *bytes, size_t length);
void print_packet(const char *what, enum side to, const uint8_t *bytes, size_t length);

/* Goes on until the test holds, or so much time has passed. Answers whether it holds. */
bool go(bool (*test)(void), uint64_t span);
void wait_for(uint64_t span);

/* ---- Messages */

size_t add_message(enum side from, uint16_t stream, uint32_t length, bool unordered);
/* Each message is there, or given up. */
bool is_settled(void);
/* The place of the first one that isn't; the number of messages where all are. */
size_t first_unsettled(void);
/* A message comes out at an end. */
void take_message(enum side at, uint32_t stream, uint32_t ppid, const uint8_t *bytes, size_t length);
uint8_t *payload_of(size_t place);

/* ---- The end of ours */

void open_ours(uint64_t seed);
void connect_ours(void);
void shut_ours(void);
void abort_ours(void);
void forget_ours(void);
void reset_ours(const uint16_t *streams, size_t count);
bool send_ours(size_t place);
void hand_to_ours(const uint8_t *bytes, size_t length);
void take_from_ours(void);
void tell_ours_time(void);
uint64_t next_of_ours(void);
/* Whether all that was sent is acknowledged. */
bool is_quiet(void);
bool interleaves_ours(void);

/* ---- The end of usrsctp */

void start_theirs(void);
void open_theirs(bool listens);
void connect_theirs(void);
void shut_theirs(void);
void abort_theirs(void);
/* Lets the association go, of whose last packets nothing passes. */
void forget_theirs(void);
void reset_theirs(const uint16_t *streams, size_t count);
bool is_theirs_open(void);
bool send_theirs(size_t place);
void hand_to_theirs(const uint8_t *bytes, size_t length);
void accept_theirs(void);
void tick_theirs(uint32_t millis);

#endif
