/* The end of ours. */
#include "world.h"
#include "shelfpigeon.h"
#include <stdio.h>
#include <stdlib.h>

static pigeon_socket ours = PIGEON_NO_HANDLE_INIT;

void open_ours(uint64_t seed) {
    pigeon_options options = PIGEON_OPTIONS;
    pigeon_default_options(&options);
    options.mtu = 1188;
    options.checksum = world->setup.crosses ? PIGEON_CHECKSUM_ZERO : PIGEON_CHECKSUM_CRC32C;
    options.zero_checksum_method = world->setup.crosses ? PIGEON_ZERO_CHECKSUM_DTLS : PIGEON_ZERO_CHECKSUM_NONE;
    if (world->setup.interleaves)
        options.flags |= PIGEON_MESSAGE_INTERLEAVING;
    uint8_t key[PIGEON_SEED_SIZE] = {0};
    memcpy(key, &seed, sizeof seed);
    uint32_t answer = pigeon_new(&ours, &options, key);
    if (answer != PIGEON_OK)
        wrong("new answers %u", answer);
    tell_ours_time();
}

static void made(const char *call, uint32_t answer) {
    if (answer != PIGEON_OK)
        wrong("%s answers %u", call, answer);
}

void connect_ours(void) { made("connect", pigeon_connect(&ours)); }

void shut_ours(void) { made("shutdown", pigeon_shutdown(&ours)); }

void abort_ours(void) { made("close", pigeon_close(&ours)); }

void forget_ours(void) { pigeon_free(&ours); }

void reset_ours(const uint16_t *streams, size_t count) { made("reset", pigeon_reset_streams(&ours, streams, count)); }

void hand_to_ours(const uint8_t *bytes, size_t length) {
    uint32_t answer = pigeon_handle_input(&ours, bytes, length);
    if (answer != PIGEON_NO_SOCKET)
        made("handle_input", answer);
}

void tell_ours_time(void) {
    uint32_t answer = pigeon_advance_time(&ours, world->now);
    if (answer != PIGEON_NO_SOCKET)
        made("advance_time", answer);
}

uint64_t next_of_ours(void) {
    uint64_t due = UINT64_MAX;
    pigeon_poll_timeout(&ours, &due);
    return due;
}

bool is_quiet(void) {
    pigeon_metrics metrics = PIGEON_METRICS;
    return pigeon_get_metrics(&ours, &metrics) != PIGEON_OK || metrics.unack_data_count == 0;
}

bool interleaves_ours(void) {
    pigeon_metrics metrics = PIGEON_METRICS;
    return pigeon_get_metrics(&ours, &metrics) == PIGEON_OK && metrics.uses_message_interleaving;
}

bool send_ours(size_t place) {
    struct message *m = &world->messages[place];
    uint8_t *bytes = payload_of(place);
    pigeon_send_options options = PIGEON_SEND_OPTIONS;
    options.lifecycle = place + 1;
    if (m->unordered)
        options.flags |= PIGEON_UNORDERED;
    if (m->retransmissions != UINT32_MAX) {
        options.flags |= PIGEON_MAX_RETRANSMISSIONS;
        options.max_retransmissions = m->retransmissions;
    }
    if (m->lifetime) {
        options.flags |= PIGEON_LIFETIME;
        options.lifetime = m->lifetime;
    }
    uint32_t answer = pigeon_send(&ours, m->stream, (uint32_t)place, bytes, m->length, &options);
    free(bytes);
    if (answer != PIGEON_QUEUE_FULL)
        made("send", answer);
    return answer == PIGEON_OK;
}

static void end_of_message(const pigeon_event *event) {
    size_t place = (size_t)event->lifecycle - 1;
    struct message *m = &world->messages[place];
    bool is_reliable = m->retransmissions == UINT32_MAX && m->lifetime == 0;
    if (event->kind == PIGEON_LIFECYCLE_END) {
        if (m->ended++)
            wrong("the life of message %zu ends twice", place);
    } else if (event->kind == PIGEON_LIFECYCLE_DELIVERED) {
        m->delivered = true;
    } else if (event->kind == PIGEON_LIFECYCLE_EXPIRED || event->kind == PIGEON_LIFECYCLE_MAYBE_EXPIRED) {
        m->given_up = true;
        if (event->kind == PIGEON_LIFECYCLE_EXPIRED && m->taken)
            wrong("message %zu was never sent whole, and came", place);
        if (is_reliable && world->told[OURS].asked == 0)
            wrong("message %zu is reliable, and expires", place);
    }
}

static void take_event(const pigeon_event *event, const uint8_t *bytes) {
    struct told *told = &world->told[OURS];
    if (world->is_loud && event->kind != PIGEON_SEND_PACKET)
        printf("%11.3f ours is told %u, error %u, stream %u, message %lld\n", (double)world->now / 1e6,
               (unsigned)event->kind, (unsigned)event->error, (unsigned)event->stream, (long long)event->lifecycle - 1);
    switch (event->kind) {
    case PIGEON_SEND_PACKET: carry(OURS, bytes, event->length); break;
    case PIGEON_ON_CONNECTED: told->connected++; break;
    case PIGEON_ON_CLOSED: told->closed++; break;
    case PIGEON_ON_CONNECTION_RESTARTED: told->restarted++; break;
    case PIGEON_ON_ABORTED:
        if (!world->bears_aborts)
            wrong("ours is told an abort, error %u: %.*s", (unsigned)event->error, (int)event->length, (const char *)bytes);
        told->aborted++;
        break;
    case PIGEON_ON_ERROR:
        if (event->error != PIGEON_ERROR_RESOURCE_EXHAUSTION && !world->bears_aborts && told->closed == 0)
            wrong("ours is told an error %u: %.*s", (unsigned)event->error, (int)event->length, (const char *)bytes);
        told->errors++;
        break;
    case PIGEON_STREAMS_RESET_FAILED: told->denied += (unsigned)event->length / 2; break;
    case PIGEON_STREAMS_RESET_PERFORMED: told->reset += (unsigned)event->length / 2; break;
    case PIGEON_INCOMING_STREAM_RESET: told->was_reset += (unsigned)event->length / 2; break;
    case PIGEON_LIFECYCLE_MAYBE_EXPIRED:
    case PIGEON_LIFECYCLE_EXPIRED:
    case PIGEON_LIFECYCLE_DELIVERED:
    case PIGEON_LIFECYCLE_END: end_of_message(event); break;
    default: break;
    }
}

/* Takes the messages that are ready, and what ours emits. */
void take_from_ours(void) {
    static uint8_t buffer[1 << 19];
    pigeon_event event = PIGEON_EVENT;
    pigeon_message message;
    uint32_t answer;
    while (pigeon_next_message(&ours, &message, buffer, sizeof buffer) == PIGEON_OK)
        take_message(OURS, message.stream, message.ppid, buffer, message.length);
    while ((answer = pigeon_poll_event(&ours, &event, buffer, sizeof buffer)) == PIGEON_OK)
        take_event(&event, buffer);
    if (answer != PIGEON_NOTHING && answer != PIGEON_NO_SOCKET)
        wrong("poll_event answers %u", answer);
}
