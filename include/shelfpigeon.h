/* SPDX-License-Identifier: Apache-2.0 */
/* SCTP (RFC 9260) without system calls.
 *
 * Packets, moments and messages are handed in; events, among them packets to send, are taken out. No function calls back, reads a
 * clock or draws a random number, and there is no global state.
 *
 * All calls go by the moment to which pigeon_advance_time advanced the socket last: it comes first in a turn, and before pigeon_connect, pigeon_send
 * and the other calls; pigeon_poll_timeout comes last.
 *
 * What the caller owes at each call:
 *   - a pointer to a handle, a struct or a number is not NULL, and points to one;
 *   - the first field of pigeon_options, pigeon_metrics, pigeon_event, pigeon_send_options, pigeon_channels_options, pigeon_channel_options and
 *     pigeon_channel_statistics is the struct's size, and it has as many bytes. PIGEON_OPTIONS, PIGEON_METRICS, PIGEON_EVENT,
 *     PIGEON_SEND_OPTIONS, PIGEON_CHANNELS_OPTIONS, PIGEON_CHANNEL_OPTIONS and PIGEON_CHANNEL_STATISTICS initialize one. A later header may
 *     append fields: with an earlier, shorter size the fields that it lacks have their defaults, or aren't written; one that is longer than the
 *     library's is answered by PIGEON_INVALID_SIZE, and nothing else happens;
 *   - a buffer has as many bytes as its length says, and a list as many places; one of length 0 may be anywhere but NULL (PIGEON_EMPTY serves
 *     for bytes);
 *   - a handle is in one call at a time, and only these functions change it: those that take it as const leave it as it is. Different handles
 *     may be in calls of different threads at once, and a handle may move to another thread: the calls of the one come before those of the
 *     other, by a lock or a join. It begins as PIGEON_NO_HANDLE, and is not copied: of two copies only one may be freed;
 *   - bytes that a socket lends (pigeon_borrow_event, pigeon_borrow_message, pigeon_channels_borrow_event) are only read, and not after the next
 *     call with this socket has begun, so that they aren't handed to that call either;
 *   - malloc aligns as C demands. No call is made in a signal handler, or in a forked child of a process with threads.
 * A handle that holds no socket (PIGEON_NO_HANDLE, or one that was freed) answers PIGEON_NO_SOCKET at each call whose numbers are right: sizes
 * of structs, a stream above 65,535, what is PIGEON_INVALID_ARGUMENT and too few places for answers are looked at first.
 * Packets and cookies aren't signed: on a network that strangers reach they go through DTLS. Without it whoever sees a packet can forge others.
 * The archive and the shared object that scripts/c-library writes are for x86-64-v2 or above, and don't ask for it; with TARGET=aarch64-linux-gnu for AArch64.
 */
#ifndef SHELFPIGEON_H
#define SHELFPIGEON_H

#include <stdbool.h>
#include <stddef.h>
#include <stdint.h>
#include <string.h>

#ifdef __cplusplus
extern "C" {
#endif

/* The version of this header, as text and as a number: 10,000 times the first number, 100 times the second one, and the third one. */
#define PIGEON_VERSION "0.1.0"
#define PIGEON_VERSION_NUMBER 100

/* The number of the library's version. Below 1.0 it serves headers that have its second number and aren't later than it: a header's third number
 * rises with each field, flag or event that it appends. */
uint32_t pigeon_version(void);

/* A socket, or none where the pointer is zero. */
typedef struct pigeon_socket {
    void *at;
} pigeon_socket;

/* A handle that holds no socket, to begin with and to be assigned. In an initializer of static storage C takes PIGEON_NO_HANDLE_INIT. */
#define PIGEON_NO_HANDLE_INIT {0}
#ifdef __cplusplus
#define PIGEON_NO_HANDLE (pigeon_socket{0})
#else
#define PIGEON_NO_HANDLE ((pigeon_socket){0})
#endif

/* What stands for a buffer of length 0. */
#define PIGEON_EMPTY ((uint8_t *)(uintptr_t)1)

/* What calls answer. */
enum {
    PIGEON_OK = 0,
    PIGEON_MEMORY = 1,           /* too little memory: the socket has failed for good, and is to be freed */
    PIGEON_FAILED = 2,           /* an earlier call found too little memory */
    PIGEON_NO_SOCKET = 3,        /* the handle holds no socket */
    PIGEON_IN_USE = 4,           /* the handle holds a socket already */
    PIGEON_INVALID_OPTIONS = 5,  /* a field of the options is out of its bounds, which stand at each field: pigeon_check_options says which */
    PIGEON_INVALID_STREAM = 6,   /* the stream's number is above 65,535 */
    PIGEON_INVALID_ARGUMENT = 7, /* flags that there aren't, or a number beyond what it can be */
    PIGEON_NOTHING = 8,          /* there is none: no event, message or record waits, or no association whose metrics are counted */
    PIGEON_SHORT_BUFFER = 9,     /* the length needed is handed out, and what didn't fit stays; of pigeon_send_many: too few places for answers */
    PIGEON_EMPTY_PAYLOAD = 10,
    PIGEON_MESSAGE_TOO_LARGE = 11,
    PIGEON_SHUTTING_DOWN = 12, /* pigeon_state says PIGEON_CLOSING; a closed socket queues the message, and answers PIGEON_OK */
    PIGEON_QUEUE_FULL = 13,
    PIGEON_NO_ASSOCIATION = 14,
    PIGEON_NOT_SUPPORTED = 15, /* the peer can't reset streams */
    PIGEON_NOT_READY = 16,     /* something stands in the way of a handover */
    PIGEON_NO_ROOM = 17,       /* too little memory to begin with: but by pigeon_handover nothing changed, and the call may be made again */
    PIGEON_SOME_REFUSED = 18,  /* some messages of a batch weren't accepted; the others were */
    PIGEON_NOT_CLOSED = 19,    /* only a closed socket takes up a record */
    PIGEON_INVALID_STATE = 20, /* the bytes are no record, or not a valid one */
    PIGEON_INVALID_SIZE = 21,  /* the size of a struct is beyond what this library knows */
    PIGEON_NO_PACKET = 22,       /* the bytes are no packet */
    PIGEON_NO_CHANNELS = 23,     /* the socket has no data channels: pigeon_channels_start */
    PIGEON_HAS_CHANNELS = 24,    /* the socket has data channels already */
    PIGEON_NO_CHANNEL = 25,      /* there is no channel on the stream */
    PIGEON_CHANNEL_CLOSING = 26, /* the channel is being closed, or its number isn't free behind that */
    PIGEON_STREAM_IN_USE = 27,   /* the stream has a channel, or isn't free yet */
    PIGEON_NO_FREE_STREAM = 28,  /* all streams that this end may open channels on are in use */
    PIGEON_TEXT_TOO_LONG = 29,   /* a label or a protocol has 65,536 bytes or more */
    PIGEON_NOT_UTF8 = 30,        /* a label, a protocol or a message of text is not UTF-8 */
    PIGEON_NOT_TAKEN = 31        /* the socket takes no message: its queue is full, it is shutting down, or max_message_size is exceeded */
};

enum { PIGEON_TEXT_ANSWER = 0, PIGEON_TEXT_EVENT = 1, PIGEON_TEXT_ERROR = 2, PIGEON_TEXT_STATE = 3, PIGEON_TEXT_OPTION = 4,
       PIGEON_TEXT_REFUSAL = 5 };
/* Hands out the text of a number of this kind: it ends by a zero byte, and stays for ever. */
void pigeon_find_text(uint32_t kind, uint32_t number, const char **text);

static inline const char *pigeon_text(uint32_t kind, uint32_t number) {
    const char *text;
    pigeon_find_text(kind, number, &text);
    return text;
}
static inline const char *pigeon_answer_text(uint32_t answer) { return pigeon_text(PIGEON_TEXT_ANSWER, answer); }
static inline const char *pigeon_event_text(uint32_t kind) { return pigeon_text(PIGEON_TEXT_EVENT, kind); }
static inline const char *pigeon_error_text(uint32_t error) { return pigeon_text(PIGEON_TEXT_ERROR, error); }
static inline const char *pigeon_state_text(uint32_t state) { return pigeon_text(PIGEON_TEXT_STATE, state); }
/* The name of the option whose place pigeon_check_options hands out. */
static inline const char *pigeon_option_text(uint32_t place) { return pigeon_text(PIGEON_TEXT_OPTION, place); }

/* Why something that came on a channel was not taken: the `error` of PIGEON_CHANNEL_REFUSED. */
static inline const char *pigeon_refusal_text(uint32_t refusal) { return pigeon_text(PIGEON_TEXT_REFUSAL, refusal); }

/* ---- Options */

#define PIGEON_UNLIMITED UINT32_MAX /* of pigeon_options: max_retransmissions, max_init_retransmits and max_held_fragments */
#define PIGEON_UNSET UINT64_MAX     /* of max_timer_backoff_duration */

enum { PIGEON_CHECKSUM_CRC32C = 0, PIGEON_CHECKSUM_ZERO = 1 };
enum { PIGEON_ZERO_CHECKSUM_NONE = 0, PIGEON_ZERO_CHECKSUM_DTLS = 1 };
enum {
    PIGEON_PARTIAL_RELIABILITY = 1,            /* RFC 3758 */
    PIGEON_MESSAGE_INTERLEAVING = 2,           /* RFC 8260 */
    PIGEON_NO_CHECKSUM_VERIFICATION = 4,       /* for tests */
    PIGEON_HANDOVER_WITH_OUTSTANDING_DATA = 8,
    PIGEON_HEARTBEAT_INTERVAL_INCLUDE_RTT = 16, /* NOT READ */
    PIGEON_AVOID_STALLS = 32                    /* what the RFCs ask, where the original stands still or loses; set by pigeon_options_for_webrtc */
};

/* What a socket is made with. Spans are in nanoseconds, sizes in bytes, congestion windows in packets of mtu bytes. A field without bounds takes each
 * number of its type. In brackets stands what pigeon_default_options writes. */
typedef struct pigeon_options {
    size_t size; /* sizeof(pigeon_options) */
    uint16_t local_port;  /* [5000] ports are written into packets, and not compared in those that come */
    uint16_t remote_port; /* [5000] */
    uint16_t announced_maximum_incoming_streams; /* [65,535] how many streams the peer may send on: announced, and held by channels alone */
    uint16_t announced_maximum_outgoing_streams; /* [65,535] how many streams this end would send on */
    uint16_t default_stream_priority;            /* [256] of a stream for which none is set */
    /* [PIGEON_CHECKSUM_CRC32C] PIGEON_CHECKSUM_ZERO: all packets carry the word 0, the INIT too, and one with a CRC32c is refused, so that both
     * ends need it (one that doesn't connect may share the other's zero_checksum_method instead). RFC 9653 is PIGEON_CHECKSUM_CRC32C with one. */
    uint16_t checksum;
    uint32_t mtu;              /* [1,191] 256 to 65,535: no packet that is emitted is larger */
    uint32_t max_message_size; /* [262,144] of messages that are sent; it bounds none that the peer sends */
    /* [5,242,880] How much of what is received is held. With nine tenths of it held each further fragment is dropped, so that a longer message
     * may never be whole: take at least twice the longest that the peer may send. At 0 and 1 nothing is taken. With PIGEON_AVOID_STALLS the next
     * fragment in order is taken all the same, while less than this and max_message_size together is held. */
    uint32_t max_receiver_window_buffer_size;
    uint32_t max_send_buffer_size;        /* [2,000,000] with as much queued on all streams no further message is taken */
    uint32_t per_stream_send_queue_limit; /* [2,000,000] the same of one stream */
    uint32_t total_buffered_amount_low_threshold;          /* [1,800,000] of PIGEON_TOTAL_BUFFERED_AMOUNT_LOW; below max_send_buffer_size */
    uint32_t default_stream_buffered_amount_low_threshold; /* [0] of PIGEON_BUFFERED_AMOUNT_LOW, for a stream for which none is set */
    uint32_t cwnd_mtus_initial;              /* [10] the congestion window at first. 1 to 65,535 */
    uint32_t cwnd_mtus_min;                  /* [4] the least one behind a loss; behind a timeout it is 1. 1 to 65,535 */
    uint32_t avoid_fragmentation_cwnd_mtus;  /* [6] from such a window on new data waits for room for a whole packet. 1 to 65,535 */
    uint32_t immediate_sack_under_cwnd_mtus; /* [10] below it data asks for an acknowledgement at once (RFC 7053). At most 65,535 */
    int32_t max_burst; /* [4] packets at once. 0 and less are valid: then no COOKIE ECHO, COOKIE ACK, SACK or message ever goes out */
    uint32_t max_retransmissions;  /* [10] how many errors in a row an association outlives, and how often a SHUTDOWN is sent again */
    uint32_t max_init_retransmits; /* [8] how often an INIT or a COOKIE ECHO is sent again */
    /* [PIGEON_ZERO_CHECKSUM_NONE] Announced to the peer (RFC 9653 section 4), any number. With another one packets that come may carry the word 0,
     * and own ones do once the peer has announced the same number. */
    uint32_t zero_checksum_method;
    uint32_t flags; /* [PIGEON_PARTIAL_RELIABILITY, and 16, which isn't read] a sum of the flags above, of no others */
    /* [PIGEON_UNLIMITED] How many fragments are held of messages that aren't ready. With so many held each further one is dropped, so
     * that a message of more may never be whole: take at least twice as many as the longest that the peer may send has. At 0 nothing is taken. */
    uint32_t max_held_fragments;
    uint64_t rtt_max;             /* [60 s] a longer round trip isn't counted */
    uint64_t rto_initial;         /* [500 ms] the retransmission timeout until a round trip is measured. At least a millisecond */
    uint64_t rto_max;             /* [60 s] the longest measured one, at least rto_min; timers back off beyond it; with PIGEON_AVOID_STALLS those of data and
                                     of resets don't */
    uint64_t rto_min;             /* [400 ms] the shortest one; it should exceed the peer's delay of acknowledgements. At least a millisecond */
    uint64_t t1_init_timeout;     /* [1 s] how long an INIT ACK is waited for at first. At least a millisecond */
    uint64_t t1_cookie_timeout;   /* [1 s] the same of a COOKIE ACK. At least a millisecond */
    uint64_t t2_shutdown_timeout; /* [1 s] NOT READ: a shutdown waits for the retransmission timeout */
    uint64_t max_timer_backoff_duration; /* [PIGEON_UNSET] to how much the retransmission timer's waits grow; its first is the timeout all the same.
                                            Unset they double up to a day; with PIGEON_AVOID_STALLS, set or not, up to rto_max at most */
    uint64_t heartbeat_interval;         /* [30 s] how long no data is sent until the peer is asked whether it is there; never at 0 */
    uint64_t delayed_ack_max_timeout;    /* [200 ms] how long an acknowledgement may wait, half the retransmission timeout at most. 1 ms or more */
    uint64_t min_rtt_variance;           /* [220 ms] eight times the least variance that a round trip is taken to have */
} pigeon_options;

/* An initializer: with the size alone. All else is written by pigeon_default_options or pigeon_options_for_webrtc. */
#define PIGEON_OPTIONS                                                                                                                       \
    {sizeof(pigeon_options), 0, 0, 0, 0, 0, 0, 0, 0, 0, 0, 0, 0, 0, 0, 0, 0, 0, 0, 0, 0, 0, 0, 0, 0, 0, 0, 0, 0, 0, 0, 0, 0, 0, 0}

/* Calls that end in _sized take the size of a struct behind its pointer, and don't read its first field: they are for other languages. Those
 * without take it from there. */

/* Writes the options that a socket has where nothing else is said. PIGEON_INVALID_SIZE. */
uint32_t pigeon_default_options_sized(void *options, size_t size);
static inline uint32_t pigeon_default_options(pigeon_options *options) { return pigeon_default_options_sized(options, options->size); }

/* Writes the options of data channels (RFC 8831), which differ from the defaults in six fields: DTLS finds damage, where the peer says so too
 * (RFC 9653); the window is twice the largest message of 262,144 bytes; 65,536 fragments are held at most; on each stream 16 MiB may wait, and
 * 4 GiB in all; and PIGEON_AVOID_STALLS is set. The mtu of 1,191 leaves room for DTLS and UDP, there are 65,535 streams each way. With
 * another largest message set max_message_size, the window to twice what the peer may send, and max_held_fragments, where that has more than
 * 32,768 fragments, to twice as many. PIGEON_INVALID_SIZE. */
uint32_t pigeon_options_for_webrtc_sized(void *options, size_t size);
static inline uint32_t pigeon_options_for_webrtc(pigeon_options *options) { return pigeon_options_for_webrtc_sized(options, options->size); }

/* PIGEON_INVALID_OPTIONS: no socket can be made, and `place` is where in the struct the first field stands that is out of its bounds, as
 * offsetof has it; pigeon_option_text has its name. PIGEON_OK: `place` is 0. PIGEON_INVALID_SIZE: it isn't written. */
uint32_t pigeon_check_options_sized(const void *options, size_t size, uint32_t *place);
static inline uint32_t pigeon_check_options(const pigeon_options *options, uint32_t *place) {
    return pigeon_check_options_sized(options, options->size, place);
}

/* ---- A socket is made, and let go */

/* The bytes of a seed. */
#define PIGEON_SEED_SIZE 32

/* Makes a closed socket at moment zero. Tags, first TSNs and ties are the words of ChaCha20 (RFC 8439) whose key is the seed. Take the seed
 * from the system's random source (getrandom, getentropy), a new one for each socket, and keep it to yourself: who knows it can end or forge
 * the association. Of the options max_message_size alone can be set afterwards. PIGEON_IN_USE, PIGEON_INVALID_SIZE, PIGEON_INVALID_ARGUMENT (a
 * flag or checksum that there isn't, or a seed of another length), PIGEON_INVALID_OPTIONS, PIGEON_NO_ROOM: the handle stays as it was. */
uint32_t pigeon_new_sized(pigeon_socket *socket, const void *options, size_t size, const uint8_t *seed, size_t seed_size);
static inline uint32_t pigeon_new(pigeon_socket *socket, const pigeon_options *options, const uint8_t seed[PIGEON_SEED_SIZE]) {
    return pigeon_new_sized(socket, options, options->size, seed, PIGEON_SEED_SIZE);
}

/* Lets the socket go, with what it holds; the peer gets nothing. Afterwards the handle holds none, so that it may be freed again. A copy
 * of the handle then names freed memory. */
void pigeon_free(pigeon_socket *socket);

/* ---- Calls. All below may answer PIGEON_NO_SOCKET; those without const PIGEON_MEMORY, PIGEON_FAILED too, but to set max_message_size, to start
 * channels or agree on one, and, without channels, to take what waits. */

/* Opens an association, where the socket is closed. Advance the time first. */
uint32_t pigeon_connect(pigeon_socket *socket);
/* No more messages are accepted, and the association ends once nothing is in flight (RFC 9260 section 9.2). What waits to be sent, or to be
 * sent again, is waited for with PIGEON_AVOID_STALLS alone, and else may be lost: wait until pigeon_is_at_rest says 1. A closed socket stays as
 * it is. Call it behind PIGEON_ON_CONNECTED: before, the socket closes at once, or sends its COOKIE ECHO no more. Advance the time first. */
uint32_t pigeon_shutdown(pigeon_socket *socket);
/* Ends the association at once, with an ABORT to the peer unless its INIT ACK is still waited for (RFC 9260 section 9.1). Without PIGEON_AVOID_STALLS
 * the send queue stays, here and where the peer aborts or restarts: what it holds goes to the peer of the next association, a partly sent message
 * from its start, but after an end from its middle where this end answers a COOKIE ECHO. With it each message is given up, as PIGEON_CAUSE_ENDED. */
uint32_t pigeon_close(pigeon_socket *socket);
/* Takes the bytes of a packet that came. What is no packet, not one for this association, or one of more than 4 SACKs and COOKIE ECHOs, is emitted
 * as an error. Advance the time first: a round trip ends at the moment of the clock. */
uint32_t pigeon_handle_input(pigeon_socket *socket, const uint8_t *bytes, size_t length);
/* Advances the time, in nanoseconds since the socket was made, and expires timers. It comes before the other calls of a turn: with a clock that
 * is late they measure wrong round trips, and what was sent goes out again at once. An earlier moment than the last one changes nothing. */
uint32_t pigeon_advance_time(pigeon_socket *socket, uint64_t nanos);
/* By which moment the time is to be advanced next, in nanoseconds since the socket was made: the wait is this less now. UINT64_MAX: no timer runs
 * and nothing is owed. Ask last in a turn, and not a socket that answered PIGEON_MEMORY: no call moves its timers any more. */
uint32_t pigeon_poll_timeout(const pigeon_socket *socket, uint64_t *nanos);
/* How long to wait for such a moment, as poll and epoll_wait take it: milliseconds, rounded up, since a turn that comes too early finds nothing due;
 * -1, until a packet comes, where it is UINT64_MAX. */
static inline int pigeon_wait(uint64_t due, uint64_t now) {
    uint64_t wait = due <= now ? 0 : (due - now - 1) / 1000000 + 1;
    return due == UINT64_MAX ? -1 : wait < INT32_MAX ? (int)wait : INT32_MAX;
}

enum { PIGEON_CLOSED = 0, PIGEON_CONNECTING = 1, PIGEON_CONNECTED = 2, PIGEON_CLOSING = 3 };
uint32_t pigeon_state(const pigeon_socket *socket, uint32_t *state);
/* The moment to which the time was advanced last. */
uint32_t pigeon_clock(const pigeon_socket *socket, uint64_t *nanos);
/* 1 where nothing is queued and nothing that was sent is kept (all is acknowledged, or its association is over): then pigeon_shutdown loses
 * nothing. Else 0. */
uint32_t pigeon_is_at_rest(const pigeon_socket *socket, uint32_t *rest);
/* Whether pigeon_handle_input would refuse these bytes, 1 or 0: they are no packet, not one for this association, or one of more than 4
 * SACKs and COOKIE ECHOs. It takes no memory.
 * PIGEON_FAILED: the socket has failed, and takes none. */
uint32_t pigeon_refuses(const pigeon_socket *socket, const uint8_t *bytes, size_t length, uint32_t *refused);
/* Sets the most bytes of a message that is sent. At 0 each is refused, where an a=max-message-size of 0 (RFC 8841) means any. With
 * PIGEON_AVOID_STALLS the peer may fill as much beyond the window: a peer's number is to be bounded before it is handed in. */
uint32_t pigeon_set_max_message_size(pigeon_socket *socket, uint32_t bytes);
/* Writes the options that the socket was made with, and the size of messages last set. PIGEON_INVALID_SIZE. */
uint32_t pigeon_get_options_sized(const pigeon_socket *socket, void *options, size_t size);
static inline uint32_t pigeon_get_options(const pigeon_socket *socket, pigeon_options *options) {
    return pigeon_get_options_sized(socket, options, options->size);
}
/* The bytes of a stream that wait to be sent. PIGEON_INVALID_STREAM. */
uint32_t pigeon_buffered_amount(const pigeon_socket *socket, uint32_t stream, size_t *bytes);
/* How many bytes more the send queue takes, of all streams: max_send_buffer_size less what waits. At 0 each message is refused; above it
 * one is taken whole, if per_stream_send_queue_limit allows. */
uint32_t pigeon_send_queue_room(const pigeon_socket *socket, size_t *bytes);

/* ---- What is counted */

/* Who wrote the cookie of an INIT ACK. PIGEON_PEER_OTHER is never told. */
enum { PIGEON_PEER_UNKNOWN = 0, PIGEON_PEER_DCSCTP_RS = 1, PIGEON_PEER_DCSCTP_CC = 2, PIGEON_PEER_USRSCTP = 3, PIGEON_PEER_OTHER = 4 };

typedef struct pigeon_metrics {
    size_t size;              /* sizeof(pigeon_metrics) */
    size_t tx_packets_count;  /* over the socket's life */
    size_t tx_messages_count; /* accepted, over the socket's life */
    size_t rtx_packets_count; /* packets of the association in which a fragment was sent again */
    uint64_t rtx_bytes_count; /* of chunks that were sent again, headers and padding included */
    size_t cwnd_bytes;
    uint64_t srtt;            /* the smoothed round trip, in nanoseconds; rto_initial until one is measured */
    size_t unack_data_count;  /* fragments in flight, and packets that the queued bytes would fill */
    size_t rx_packets_count;  /* over the socket's life */
    size_t rx_messages_count; /* messages of the association that came whole */
    uint32_t peer_rwnd_bytes; /* how much the peer's window still takes; of a peer whose COOKIE ECHO came at most max_send_buffer_size, until its first SACK */
    uint32_t peer_implementation; /* by the INIT ACK that came last, of an earlier association too; PIGEON_PEER_UNKNOWN at an end that got none */
    uint16_t negotiated_maximum_incoming_streams;
    uint16_t negotiated_maximum_outgoing_streams;
    bool uses_message_interleaving; /* RFC 8260 */
    bool uses_zero_checksum;        /* RFC 9653 */
} pigeon_metrics;

#define PIGEON_METRICS {sizeof(pigeon_metrics), 0, 0, 0, 0, 0, 0, 0, 0, 0, 0, 0, 0, 0, 0, 0}

/* PIGEON_NOTHING: there is no association, or it is not so far that anything is counted. PIGEON_INVALID_SIZE. */
uint32_t pigeon_get_metrics_sized(const pigeon_socket *socket, void *metrics, size_t size);
static inline uint32_t pigeon_get_metrics(const pigeon_socket *socket, pigeon_metrics *metrics) {
    return pigeon_get_metrics_sized(socket, metrics, metrics->size);
}

/* ---- A socket is handed over */

/* What stands in the way of a handover: the sum of these. A closed socket is ready. With PIGEON_HANDOVER_WITH_OUTSTANDING_DATA the bits 2, 512
 * and 2048 are never set. */
enum {
    PIGEON_READY = 0,
    PIGEON_WRONG_CONNECTION_STATE = 1,
    PIGEON_SEND_QUEUE_NOT_EMPTY = 2,
    PIGEON_PENDING_STREAM_RESET_REQUEST = 4,
    PIGEON_DATA_TRACKER_TSN_BLOCKS_PENDING = 8,
    PIGEON_PENDING_STREAM_RESET = 16,
    PIGEON_STREAM_RESET_DEFERRED = 64,
    PIGEON_STREAM_HAS_UNASSEMBLED_CHUNKS = 128,
    PIGEON_RETRANSMISSION_QUEUE_OUTSTANDING_DATA = 512,
    PIGEON_RETRANSMISSION_QUEUE_FAST_RECOVERY = 1024,
    PIGEON_RETRANSMISSION_QUEUE_NOT_EMPTY = 2048
};
uint32_t pigeon_handover_readiness(const pigeon_socket *socket, uint32_t *readiness);

/* Hands out the socket's record, by which another socket goes on in its place; this one closes, as PIGEON_ON_CLOSED says, and the peer gets
 * nothing. Take what is ready first: it is acknowledged, and not in the record. Free this one then: its queue stays, and would go out twice.
 * `needed` becomes the record's length. PIGEON_NOT_READY: nothing changes. PIGEON_SHORT_BUFFER (and `needed` is handed out),
 * PIGEON_NO_ROOM: the socket has closed, and its record stays for the next call, before any other. A packet of the association that is handed
 * in meanwhile is refused with an error, and lost. */
uint32_t pigeon_handover(pigeon_socket *socket, size_t *needed, uint8_t *buffer, size_t length);

/* Takes up a record in a closed socket that was made with the same options, and sends what may be sent; PIGEON_ON_CONNECTED is emitted. Advance
 * the time first, to the present: what is outstanding is dated back from the clock's moment. The retransmission timer starts with the next
 * fragment that goes out, or with a SACK that leaves some in flight, and heartbeats with the next data: until then pigeon_poll_timeout may be
 * UINT64_MAX. With PIGEON_AVOID_STALLS both start at once. Thresholds of streams are the default again, and what the socket had queued is gone. Of
 * a socket that was closed there is nothing to take up. PIGEON_NOT_CLOSED, PIGEON_INVALID_STATE, PIGEON_NO_ROOM: nothing changes. */
uint32_t pigeon_restore(pigeon_socket *socket, const uint8_t *bytes, size_t length);

/* ---- Streams. Above 65,535 each answers PIGEON_INVALID_STREAM. */

/* Sets the priority of a stream, by which it is weighed where messages are interleaved (RFC 8260): twice as much goes of one with twice the priority,
 * where both have something to send. 0 counts as 1. */
uint32_t pigeon_set_stream_priority(pigeon_socket *socket, uint32_t stream, uint16_t priority);
uint32_t pigeon_stream_priority(const pigeon_socket *socket, uint32_t stream, uint16_t *priority);
/* Sets the amount in bytes at which PIGEON_BUFFERED_AMOUNT_LOW is emitted. */
uint32_t pigeon_set_buffered_amount_low_threshold(pigeon_socket *socket, uint32_t stream, size_t bytes);
uint32_t pigeon_buffered_amount_low_threshold(const pigeon_socket *socket, uint32_t stream, size_t *bytes);
/* Resets a stream, whose numbers then begin anew (RFC 6525): its messages of which nothing is sent are dropped, and no other one is sent
 * until the peer has answered. PIGEON_NO_ASSOCIATION, PIGEON_NOT_SUPPORTED: nothing changes. Advance the time first. */
uint32_t pigeon_reset_stream(pigeon_socket *socket, uint32_t stream);
/* Resets several streams by one request, where they fit. PIGEON_NO_ROOM: there is no memory for a copy of the list. An empty list only sends
 * what may be sent. */
uint32_t pigeon_reset_streams(pigeon_socket *socket, const uint16_t *streams, size_t count);

/* ---- Messages */

enum { PIGEON_UNORDERED = 1, PIGEON_LIFETIME = 2, PIGEON_MAX_RETRANSMISSIONS = 4 };

/* How a message is sent. All zero behind the size is an ordered, reliable message. */
typedef struct pigeon_send_options {
    size_t size; /* sizeof(pigeon_send_options) */
    uint32_t flags;
    uint32_t max_retransmissions; /* with PIGEON_MAX_RETRANSMISSIONS, at most 65,535 (RFC 7496 section 3.1) */
    uint64_t lifetime;            /* with PIGEON_LIFETIME, in nanoseconds (RFC 3758 section 4.1); it ends a millisecond behind that */
    uint64_t lifecycle;           /* by which lifecycle events name the message; none at 0 */
} pigeon_send_options;

#define PIGEON_SEND_OPTIONS {sizeof(pigeon_send_options), 0, 0, 0, 0}

/* Queues a message, which is copied, and sends as much as may be sent. Advance the time first: lifetime, round trip and retransmission count from the
 * clock's moment. A full queue emits an error at each call: go on at PIGEON_BUFFERED_AMOUNT_LOW of the stream, or PIGEON_TOTAL_BUFFERED_AMOUNT_LOW,
 * where more than the threshold waits, and look each turn where messages are given up or streams reset, since then neither need come.
 * PIGEON_EMPTY_PAYLOAD, PIGEON_MESSAGE_TOO_LARGE, PIGEON_SHUTTING_DOWN, PIGEON_QUEUE_FULL: it isn't queued, and emits PIGEON_LIFECYCLE_END of its
 * lifecycle, then PIGEON_ON_ERROR. PIGEON_INVALID_ARGUMENT: flags that there aren't, or a max_retransmissions above 65,535. PIGEON_INVALID_SIZE.
 * PIGEON_INVALID_STREAM. PIGEON_NO_ROOM: no memory for the copy. */
uint32_t pigeon_send_sized(pigeon_socket *socket, uint32_t stream, uint32_t ppid, const uint8_t *payload, size_t length, const void *options,
                           size_t size);
static inline uint32_t pigeon_send(pigeon_socket *socket, uint32_t stream, uint32_t ppid, const uint8_t *payload, size_t length,
                                   const pigeon_send_options *options) {
    return pigeon_send_sized(socket, stream, ppid, payload, length, options, options->size);
}

/* A message to be sent. The payload stays C's: it is copied within the call. */
typedef struct pigeon_outgoing {
    uint32_t stream;
    uint32_t ppid;
    const uint8_t *payload; /* as a buffer: of a length of 0 it is PIGEON_EMPTY */
    size_t length;
} pigeon_outgoing;

/* Queues copies of several messages, all by the same options, so that all have one lifecycle, and sends then; advance the time first. The first
 * `count` of the numbers at `answers` become what pigeon_send would answer for each; PIGEON_SOME_REFUSED where not all are PIGEON_OK, and the others
 * are queued all the same. PIGEON_INVALID_SIZE and PIGEON_INVALID_ARGUMENT as of pigeon_send; PIGEON_SHORT_BUFFER: `answered` is less than `count`;
 * PIGEON_INVALID_STREAM: a stream is above 65,535; PIGEON_NO_ROOM: no memory for the copies. After one of these five nothing is queued. After
 * PIGEON_MEMORY, of pigeon_send too, some may be queued or have gone, and no number is written. */
uint32_t pigeon_send_many_sized(pigeon_socket *socket, const pigeon_outgoing *messages, size_t count, const void *options, size_t size,
                                uint32_t *answers, size_t answered);
static inline uint32_t pigeon_send_many(pigeon_socket *socket, const pigeon_outgoing *messages, size_t count,
                                        const pigeon_send_options *options, uint32_t *answers, size_t answered) {
    return pigeon_send_many_sized(socket, messages, count, options, options->size, answers, answered);
}

typedef struct pigeon_message {
    uint32_t stream;
    uint32_t ppid;
    size_t length;
} pigeon_message;

/* Hands out the message that was ready first. PIGEON_SHORT_BUFFER: it stays, and `length` says what it needs. Messages go with their
 * association, which the next packet may end: take them behind each packet. With PIGEON_AVOID_STALLS the peer may have to be told that there is room
 * again: then pigeon_poll_timeout names this moment, so ask behind the last message. */
uint32_t pigeon_next_message(pigeon_socket *socket, pigeon_message *message, uint8_t *buffer, size_t length);

/* The same without a copy: the `length` bytes at `payload` are the socket's, and are lent until the next call with it. They are let go when
 * the socket lends others, when it has none to lend (PIGEON_NOTHING), or when it is freed. */
uint32_t pigeon_borrow_message(pigeon_socket *socket, pigeon_message *message, const uint8_t **payload);

/* How many messages are ready. */
uint32_t pigeon_messages_ready_count(const pigeon_socket *socket, size_t *count);

enum { PIGEON_CAUSE_LIFETIME = 0, PIGEON_CAUSE_RETRANSMISSIONS = 1, PIGEON_CAUSE_RESET = 2, PIGEON_CAUSE_ENDED = 3 };

/* A message that was given up (RFC 3758 section 3.5). */
typedef struct pigeon_given_up {
    uint32_t number;          /* its place in the order in which messages were accepted, from 0, behind a restore from where the record ends, modulo 2^32 */
    uint32_t cause;           /* its lifetime passed, a fragment was sent again as often as allowed, its stream was reset, or its association ended */
    uint32_t retransmissions; /* of PIGEON_CAUSE_RETRANSMISSIONS: how often */
} pigeon_given_up;

/* Takes the record of the message that was given up first. Take all of them each turn, since they pile up. PIGEON_NOTHING: there is none. */
uint32_t pigeon_next_given_up(pigeon_socket *socket, pigeon_given_up *record);

/* ---- Events */

enum {
    PIGEON_SEND_PACKET = 0, /* the buffer has a packet to be sent to the peer */
    PIGEON_ON_CONNECTED = 1, /* what came with the peer's COOKIE ECHO is ready by then; on channels it is told behind */
    PIGEON_ON_CLOSED = 2,    /* the association has ended, by a call of this end, a handover too, or by a shutdown of the peer */
    PIGEON_ON_CONNECTION_RESTARTED = 3, /* the peer began anew: messages may be lost, and PIGEON_ON_CONNECTED follows; see pigeon_close for what waits */
    PIGEON_ON_ABORTED = 4,              /* the socket was closed for `error`; the buffer has its text: `length` bytes of UTF-8, without a zero byte */
    PIGEON_ON_ERROR = 5,                /* `error` closes nothing; the buffer has its text, likewise */
    PIGEON_BUFFERED_AMOUNT_LOW = 6,     /* of `stream` */
    PIGEON_TOTAL_BUFFERED_AMOUNT_LOW = 7,
    PIGEON_STREAMS_RESET_FAILED = 8, /* of these three the buffer has the streams, each a uint16_t of this processor: pigeon_stream_at */
    PIGEON_STREAMS_RESET_PERFORMED = 9,
    PIGEON_INCOMING_STREAM_RESET = 10, /* all, where none is named */
    PIGEON_LIFECYCLE_FULLY_SENT = 11,  /* of the message with the number `lifecycle`: its last fragment went out */
    PIGEON_LIFECYCLE_MAYBE_EXPIRED = 12, /* it was given up after that: the peer may have it */
    PIGEON_LIFECYCLE_EXPIRED = 13,     /* it was given up, or dropped, before that */
    PIGEON_LIFECYCLE_DELIVERED = 14,   /* the peer acknowledged it for good */
    PIGEON_LIFECYCLE_END = 15,         /* nothing more is told of it; of a refused message this alone is, of one in flight as its association ends this isn't */
    /* These come from pigeon_channels_borrow_event alone; `stream` is the channel's number. */
    PIGEON_CHANNEL_OPENED = 16, /* the peer has opened it, or has answered, by a message at least; may come before PIGEON_ON_CONNECTED */
    PIGEON_CHANNEL_TEXT = 17,   /* a message of text; the bytes are it, and may be none. That they are UTF-8 is the peer's word, and isn't tested */
    PIGEON_CHANNEL_BINARY = 18, /* a message of bytes */
    PIGEON_CHANNEL_CLOSED = 19, /* whoever closed it; its number is free, or its reset was refused, and messages may follow */
    PIGEON_CHANNEL_REFUSED = 20 /* something that came was not taken, for `error`, one of PIGEON_REFUSED_.. */
};

/* Kinds of errors. */
enum {
    PIGEON_ERROR_TOO_MANY_RETRIES = 1,
    PIGEON_ERROR_NOT_CONNECTED = 2,
    PIGEON_ERROR_PARSE_FAILED = 3,
    PIGEON_ERROR_WRONG_SEQUENCE = 4,
    PIGEON_ERROR_PEER_REPORTED = 5,
    PIGEON_ERROR_PROTOCOL_VIOLATION = 6,
    PIGEON_ERROR_RESOURCE_EXHAUSTION = 7,
    PIGEON_ERROR_UNSUPPORTED_OPERATION = 8 /* no event has it */
};

typedef struct pigeon_event {
    size_t size; /* sizeof(pigeon_event) */
    uint32_t kind;
    uint32_t error;
    uint32_t stream;
    /* Of PIGEON_ERROR_PEER_REPORTED: the code of the first error cause of the peer's ABORT or ERROR (RFC 9260 section 3.3.10), where it is 2, 6,
     * 9, 10, 12 or 13; else 0. 12 is a close by the peer's user, or too many retransmissions there. */
    uint32_t cause;
    uint64_t lifecycle;
    size_t length; /* how many bytes it has, or needs */
} pigeon_event;

#define PIGEON_EVENT {sizeof(pigeon_event), 0, 0, 0, 0, 0, 0}

/* The stream at this place, from 0, of the bytes of an event of streams, which has event.length / 2. */
static inline uint16_t pigeon_stream_at(const uint8_t *bytes, size_t place) {
    uint16_t stream;
    memcpy(&stream, bytes + 2 * place, sizeof stream);
    return stream;
}

/* Hands out the event that was emitted first. Take all of them each turn: those that wait are kept, however many there are.
 * PIGEON_SHORT_BUFFER: it stays, and `length` says what it needs. PIGEON_NO_ROOM, which events of streams alone answer: it stays.
 * PIGEON_INVALID_SIZE. Packets need at most the options' mtu, texts more, streams that are reset two bytes each, and a packet may name
 * 32,750; what stays holds back all behind it. */
uint32_t pigeon_poll_event_sized(pigeon_socket *socket, void *event, size_t size, uint8_t *buffer, size_t length);
static inline uint32_t pigeon_poll_event(pigeon_socket *socket, pigeon_event *event, uint8_t *buffer, size_t length) {
    return pigeon_poll_event_sized(socket, event, event->size, buffer, length);
}

/* The same without a copy: the `length` bytes at `bytes` are the socket's, and are lent until the next call with it, as those of
 * pigeon_borrow_message. PIGEON_NO_ROOM, which events of streams alone answer: the event stays. PIGEON_INVALID_SIZE. */
uint32_t pigeon_borrow_event_sized(pigeon_socket *socket, void *event, size_t size, const uint8_t **bytes);
static inline uint32_t pigeon_borrow_event(pigeon_socket *socket, pigeon_event *event, const uint8_t **bytes) {
    return pigeon_borrow_event_sized(socket, event, event->size, bytes);
}

/* ---- Data channels (RFC 8831, RFC 8832)
 *
 * A socket has channels from pigeon_channels_start on, and goes by the same handle: pigeon_connect, pigeon_advance_time, pigeon_poll_timeout,
 * pigeon_free and the rest stay as they are. A turn:
 *
 *     pigeon_advance_time(&socket, now);
 *     pigeon_channels_handle_input(&socket, packet, length);  for each packet that came, and what the owner opens, sends and closes
 *     while (pigeon_channels_borrow_event(&socket, &event, &bytes) == PIGEON_OK) ..      packets to send, messages, channels
 *     while (pigeon_next_given_up(&socket, &record) == PIGEON_OK) {}                     else records of messages given up pile up
 *     pigeon_poll_timeout(&socket, &next);
 *
 * pigeon_channels_handle_input takes the place of pigeon_handle_input, by which channels would see what two packets brought in another order, and
 * pigeon_channels_borrow_event that of pigeon_borrow_event, pigeon_poll_event, pigeon_borrow_message and pigeon_next_message: what those take the
 * channels don't see. Nor is pigeon_send or pigeon_reset_stream called for a stream that has a channel; and any stream of the association that the
 * peer resets is reset in turn, of those without a channel 256, each once as long as nothing comes on it, by which what waits on it is dropped. A
 * channel's number is its stream's: pigeon_buffered_amount, pigeon_set_buffered_amount_low_threshold and pigeon_buffered_amount_low_threshold take
 * it, and PIGEON_BUFFERED_AMOUNT_LOW says it; a threshold stays with the stream, also for a channel that is opened there later. Channels end with
 * their association, each with its PIGEON_CHANNEL_CLOSED before PIGEON_ON_CLOSED, PIGEON_ON_ABORTED or PIGEON_ON_CONNECTION_RESTARTED; a record
 * that is handed over has none. One on a stream that the association doesn't have as it begins has its own before PIGEON_ON_CONNECTED. Calls may
 * end it too (pigeon_advance_time, pigeon_close): who connects again takes events behind them before it opens or sends. A channel that is opened
 * between is closed with the old association, and what was sent goes out in the next one.
 *
 * Of each packet messages are told before events, of one that begins with a COOKIE ECHO behind those that say how the association stands, and
 * behind what was emitted before it. So what comes with a COOKIE ECHO is told behind PIGEON_ON_CONNECTED, where the peer restarts as of new
 * channels: the old ones are closed before. What these had queued goes out without PIGEON_AVOID_STALLS.
 *
 * Each of these calls answers PIGEON_NO_CHANNELS where there are none, and PIGEON_INVALID_STREAM for a number above 65,535. PIGEON_MEMORY, PIGEON_FAILED:
 * channels have failed, or the socket and they. What they had told before can be taken, then the socket is to be freed. Later calls need not say so.
 */

/* Who opens which: the client of DTLS (a=setup:active) even streams, the server (a=setup:passive) odd ones. */
enum { PIGEON_ROLE_CLIENT = 0, PIGEON_ROLE_SERVER = 1 };

/* With what channels are switched on. Sizes in bytes. */
typedef struct pigeon_channels_options {
    size_t size; /* sizeof(pigeon_channels_options) */
    uint32_t role;
    uint32_t max_message_size;      /* own a=max-message-size (RFC 8841): longer messages that come are refused; at 0 all but empty ones */
    uint32_t peer_max_message_size; /* the peer's, 65,536 where its description has none: a longer message isn't sent; any is at 0 */
    uint32_t max_buffered_amount;   /* a message by whose length more than this would wait on its channel isn't taken; nor is any where
                                       per_stream_send_queue_limit or max_send_buffer_size of the socket's options waits already */
    uint32_t max_kept_bytes;        /* of labels, protocols and unfinished messages that all channels keep: an opening by the peer beyond it
                                       is refused, and a part of a message beyond it drops that; what this end opens counts and is taken */
    uint32_t reserved;              /* 0: the place of a later field */
} pigeon_channels_options;

#define PIGEON_CHANNELS_OPTIONS {sizeof(pigeon_channels_options), PIGEON_ROLE_CLIENT, 262144, 65536, 16777216, 16777216, 0}

/* Switches channels on: after pigeon_new, before the socket connects and before a packet comes. The socket's own max_message_size bounds what is
 * sent beside peer_max_message_size. PIGEON_INVALID_SIZE, PIGEON_INVALID_ARGUMENT (a role that there isn't), PIGEON_HAS_CHANNELS: nothing changes. */
uint32_t pigeon_channels_start_sized(pigeon_socket *socket, const void *options, size_t size);
static inline uint32_t pigeon_channels_start(pigeon_socket *socket, const pigeon_channels_options *options) {
    return pigeon_channels_start_sized(socket, options, options->size);
}

/* How the messages of a channel go, by the flags PIGEON_UNORDERED and one at most of PIGEON_LIFETIME and PIGEON_MAX_RETRANSMISSIONS. */
typedef struct pigeon_channel_options {
    size_t size; /* sizeof(pigeon_channel_options) */
    uint32_t flags;
    uint32_t max_retransmissions; /* with PIGEON_MAX_RETRANSMISSIONS: told to the peer as it is; above 65,535 it counts as that here */
    uint32_t lifetime;            /* with PIGEON_LIFETIME, in milliseconds */
    uint32_t priority;            /* at most 65,535: 128 below normal, 256 normal, 512 high, 1,024 extra high (RFC 8831 section 6.4); told to the
                                     peer, and set of the stream (pigeon_set_stream_priority) by the time that events are taken; 0 leaves
                                     the stream's own */
} pigeon_channel_options;

/* A channel that is ordered and reliable. */
#define PIGEON_CHANNEL_OPTIONS {sizeof(pigeon_channel_options), 0, 0, 0, 256}

/* Opens a channel, and hands out its number. Messages may be sent at once; PIGEON_CHANNEL_OPENED tells when the peer has it. Label and protocol are
 * UTF-8: C strings, not NULL, in the inline calls; in those that end in _sized bytes, without a zero byte at their end. Advance the time first.
 * PIGEON_INVALID_SIZE, PIGEON_INVALID_ARGUMENT (flags or a priority that there aren't), PIGEON_NOT_UTF8, PIGEON_TEXT_TOO_LONG,
 * PIGEON_NO_FREE_STREAM, PIGEON_NOT_TAKEN (by which PIGEON_ON_ERROR is emitted), PIGEON_NO_ROOM: nothing else changes. */
uint32_t pigeon_channel_open_sized(pigeon_socket *socket, const void *options, size_t size, const uint8_t *label, size_t label_length,
                                   const uint8_t *protocol, size_t protocol_length, uint32_t *channel);
static inline uint32_t pigeon_channel_open(pigeon_socket *socket, const pigeon_channel_options *options, const char *label, const char *protocol,
                                           uint32_t *channel) {
    return pigeon_channel_open_sized(socket, options, options->size, (const uint8_t *)label, strlen(label), (const uint8_t *)protocol,
                                     strlen(protocol), channel);
}

/* A channel that both ends have agreed on beforehand, by any number that is free; it is open at once. Whether an association that stands has its
 * stream isn't looked at: the lesser of negotiated_maximum_incoming_streams and negotiated_maximum_outgoing_streams of the metrics says it, and a
 * channel beyond that may stay closing. PIGEON_INVALID_SIZE, PIGEON_INVALID_ARGUMENT, PIGEON_NOT_UTF8, PIGEON_STREAM_IN_USE, PIGEON_NO_ROOM: nothing
 * changes. */
uint32_t pigeon_channel_negotiate_sized(pigeon_socket *socket, uint32_t channel, const void *options, size_t size, const uint8_t *label,
                                        size_t label_length, const uint8_t *protocol, size_t protocol_length);
static inline uint32_t pigeon_channel_negotiate(pigeon_socket *socket, uint32_t channel, const pigeon_channel_options *options, const char *label,
                                                const char *protocol) {
    return pigeon_channel_negotiate_sized(socket, channel, options, options->size, (const uint8_t *)label, strlen(label), (const uint8_t *)protocol,
                                          strlen(protocol));
}

/* Sends a copy of a message; `kind` is PIGEON_CHANNEL_TEXT or PIGEON_CHANNEL_BINARY, and the message may be empty. Advance the time first.
 * PIGEON_INVALID_ARGUMENT (another kind), PIGEON_NO_CHANNEL, PIGEON_CHANNEL_CLOSING, PIGEON_NOT_UTF8, PIGEON_MESSAGE_TOO_LARGE (for the peer),
 * PIGEON_QUEUE_FULL (max_buffered_amount, which a longer message always exceeds: go on at PIGEON_BUFFERED_AMOUNT_LOW, where more than the threshold
 * waits), PIGEON_NOT_TAKEN (the socket's queue of all streams, or of this one, is full: go on at PIGEON_TOTAL_BUFFERED_AMOUNT_LOW, or
 * PIGEON_BUFFERED_AMOUNT_LOW, likewise; or its own max_message_size is exceeded, or it shuts down: then it never is; PIGEON_ON_ERROR is emitted each
 * time), PIGEON_NO_ROOM: it isn't sent. */
uint32_t pigeon_channel_send(pigeon_socket *socket, uint32_t channel, uint32_t kind, const uint8_t *payload, size_t length);

/* Closes a channel: what was accepted is sent, then its stream is reset. PIGEON_CHANNEL_CLOSED tells when that is done. Where the peer closes
 * a channel, also one that is being closed here, what waits for it is dropped, as by Chromium. Before there is an association the reset waits for
 * it. Where it is refused (by a peer without RFC 6525, or that denies it) the channel's number stays in use until the association ends.
 * Advance the time first. PIGEON_NO_CHANNEL. */
uint32_t pigeon_channel_close(pigeon_socket *socket, uint32_t channel);

/* What a channel is, in the words of W3C's RTCDataChannel.readyState. */
enum {
    PIGEON_CHANNEL_STATE_CLOSED = 0,     /* it was told as closed, or none was taken here, and its number isn't free yet */
    PIGEON_CHANNEL_STATE_CONNECTING = 1, /* this end opens it, and PIGEON_CHANNEL_OPENED is to come. Messages are accepted */
    PIGEON_CHANNEL_STATE_OPEN = 2,       /* both ends have it; one that was negotiated is so at once. Messages are accepted */
    PIGEON_CHANNEL_STATE_CLOSING = 3     /* an end closes it, and PIGEON_CHANNEL_CLOSED is to come. No message is accepted */
};

/* Hands out the state of the channel that is on a stream now: events that wait may be behind it. PIGEON_NO_CHANNEL: there is none, it is closed and
 * its number is free. */
uint32_t pigeon_channel_state(const pigeon_socket *socket, uint32_t channel, uint32_t *state);

/* Why something that came was not taken. */
enum {
    PIGEON_REFUSED_BAD_MESSAGE = 1,  /* no message of the opening; where the association has the stream it is reset, and a channel there closed */
    PIGEON_REFUSED_PARITY = 2,       /* an opening on a stream that is this end's to open; the stream is reset */
    PIGEON_REFUSED_STREAM = 3,       /* an opening on a stream that the association doesn't have */
    PIGEON_REFUSED_IN_USE = 4,       /* an opening on a stream that has a channel, which is closed */
    PIGEON_REFUSED_NO_CHANNEL = 5,   /* data on a stream without a channel */
    PIGEON_REFUSED_PAYLOAD = 6,      /* a payload protocol identifier that is none of those of channels */
    PIGEON_REFUSED_TOO_LONG = 7,     /* a message longer than max_message_size, or of parts beyond max_kept_bytes */
    PIGEON_REFUSED_NO_ROOM = 8       /* an opening whose label and protocol go beyond max_kept_bytes; the stream is reset */
};

/* Takes the bytes of a packet that came, as pigeon_handle_input does, and what it brings to the channels. */
uint32_t pigeon_channels_handle_input(pigeon_socket *socket, const uint8_t *bytes, size_t length);

/* Hands out the event that comes next, of the socket or of its channels: packets to send and messages are among them. Take all of them each turn. The
 * `length` bytes at `bytes` are the socket's, and are lent until the next call with it, as those of pigeon_borrow_event. PIGEON_NOTHING: none is
 * left. PIGEON_MEMORY, PIGEON_FAILED: channels have failed, and none is left. PIGEON_INVALID_SIZE. Of the socket's events those of resets aren't
 * handed out, of no stream: channels take them. */
uint32_t pigeon_channels_borrow_event_sized(pigeon_socket *socket, void *event, size_t size, const uint8_t **bytes);
static inline uint32_t pigeon_channels_borrow_event(pigeon_socket *socket, pigeon_event *event, const uint8_t **bytes) {
    return pigeon_channels_borrow_event_sized(socket, event, event->size, bytes);
}

/* Writes how the messages of a channel go, as its opener said. PIGEON_NO_CHANNEL, PIGEON_INVALID_SIZE. */
uint32_t pigeon_channel_get_options_sized(const pigeon_socket *socket, uint32_t channel, void *options, size_t size);
static inline uint32_t pigeon_channel_get_options(const pigeon_socket *socket, uint32_t channel, pigeon_channel_options *options) {
    return pigeon_channel_get_options_sized(socket, channel, options, options->size);
}

/* Copies the label of a channel, without a zero byte; `needed` becomes its length. PIGEON_NO_CHANNEL; PIGEON_SHORT_BUFFER: only `needed` is
 * written. */
uint32_t pigeon_channel_label(const pigeon_socket *socket, uint32_t channel, size_t *needed, char *buffer, size_t length);
/* The same of its protocol. */
uint32_t pigeon_channel_protocol(const pigeon_socket *socket, uint32_t channel, size_t *needed, char *buffer, size_t length);

/* What a channel counts: messages that the socket accepted, and that came and weren't refused. */
typedef struct pigeon_channel_statistics {
    size_t size; /* sizeof(pigeon_channel_statistics) */
    uint64_t messages_sent;
    uint64_t bytes_sent;
    uint64_t messages_received;
    uint64_t bytes_received;
} pigeon_channel_statistics;

#define PIGEON_CHANNEL_STATISTICS {sizeof(pigeon_channel_statistics), 0, 0, 0, 0}

/* PIGEON_NO_CHANNEL, PIGEON_INVALID_SIZE. */
uint32_t pigeon_channel_get_statistics_sized(const pigeon_socket *socket, uint32_t channel, void *statistics, size_t size);
static inline uint32_t pigeon_channel_get_statistics(const pigeon_socket *socket, uint32_t channel, pigeon_channel_statistics *statistics) {
    return pigeon_channel_get_statistics_sized(socket, channel, statistics, statistics->size);
}

/* ---- To look at */

/* Writes what the chunks of a packet say, one line each, and a zero byte; `needed` is how many bytes that takes. The checksum isn't looked
 * at. PIGEON_SHORT_BUFFER: nothing is written but `needed`. PIGEON_NO_PACKET, PIGEON_NO_ROOM: nothing is. */
uint32_t pigeon_describe_packet(const uint8_t *bytes, size_t length, size_t *needed, char *buffer, size_t room);

#ifdef __cplusplus
}
#endif

#endif
