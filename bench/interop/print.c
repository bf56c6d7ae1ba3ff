/* A packet as a line, for who looks into a failure. */
#include "world.h"
#include <stdio.h>

static uint32_t be16(const uint8_t *p) { return (uint32_t)p[0] << 8 | p[1]; }

static uint32_t be32(const uint8_t *p) { return be16(p) << 16 | be16(p + 2); }

static void print_fragment(const uint8_t *chunk, uint32_t length, bool is_wide) {
    uint32_t head = is_wide ? 20 : 16;
    printf(" %s%s%s%s%s %u stream %u", is_wide ? "I-DATA" : "DATA", chunk[1] & 2 ? "(B" : "(", chunk[1] & 1 ? "E" : "",
           chunk[1] & 4 ? "U" : "", ")", be32(chunk + 4), be16(chunk + 8));
    if (is_wide)
        printf(" mid %u %s %u", be32(chunk + 12), chunk[1] & 2 ? "ppid" : "fsn", be32(chunk + 16));
    else
        printf(" ssn %u ppid %u", be16(chunk + 10), be32(chunk + 12));
    printf(" %u bytes", length - head);
}

static void print_sack(const uint8_t *chunk, uint32_t length) {
    printf(" SACK %u window %u", be32(chunk + 4), be32(chunk + 8));
    for (uint32_t i = 0; i < be16(chunk + 12) && 20 + 4 * i <= length; i++)
        printf(" %u-%u", be16(chunk + 16 + 4 * i), be16(chunk + 18 + 4 * i));
    if (be16(chunk + 14))
        printf(" twice %u", be16(chunk + 14));
}

static void print_forward(const uint8_t *chunk, uint32_t length, bool is_wide) {
    printf(" %s %u", is_wide ? "I-FORWARD-TSN" : "FORWARD-TSN", be32(chunk + 4));
    for (uint32_t at = 8; at + (is_wide ? 8 : 4) <= length; at += is_wide ? 8 : 4)
        if (is_wide)
            printf(" stream %u%s mid %u", be16(chunk + at), chunk[at + 3] & 1 ? "U" : "", be32(chunk + at + 4));
        else
            printf(" stream %u ssn %u", be16(chunk + at), be16(chunk + at + 2));
}

static void print_parameters(const uint8_t *chunk, uint32_t length) {
    printf(" RE-CONFIG");
    for (uint32_t at = 4; at + 8 <= length; at += (be16(chunk + at + 2) + 3) / 4 * 4) {
        uint32_t kind = be16(chunk + at), size = be16(chunk + at + 2);
        if (size < 4)
            return;
        if (kind == 13) {
            printf(" reset %u answers %u last %u streams", be32(chunk + at + 4), be32(chunk + at + 8), be32(chunk + at + 12));
            for (uint32_t i = 16; i + 2 <= size; i += 2)
                printf(" %u", be16(chunk + at + i));
        } else if (kind == 16) {
            printf(" answer to %u: %u", be32(chunk + at + 4), be32(chunk + at + 8));
        } else {
            printf(" parameter %u", kind);
        }
    }
}

static void print_chunk(const uint8_t *chunk, uint32_t length) {
    static const char *const names[] = {"DATA", "INIT", "INIT-ACK", "SACK", "HEARTBEAT", "HEARTBEAT-ACK", "ABORT", "SHUTDOWN",
                                        "SHUTDOWN-ACK", "ERROR", "COOKIE-ECHO", "COOKIE-ACK", "ECNE", "CWR", "SHUTDOWN-COMPLETE"};
    uint32_t kind = chunk[0];
    if ((kind == 0 && 16 <= length) || (kind == 64 && 20 <= length))
        print_fragment(chunk, length, kind == 64);
    else if (kind == 3 && 16 <= length)
        print_sack(chunk, length);
    else if ((kind == 192 || kind == 194) && 8 <= length)
        print_forward(chunk, length, kind == 194);
    else if (kind == 130)
        print_parameters(chunk, length);
    else if (kind < sizeof names / sizeof *names)
        printf(" %s", names[kind]);
    else
        printf(" chunk %u", kind);
    if ((kind == 1 || kind == 2) && 20 <= length)
        printf(" tag %08x tsn %u", be32(chunk + 4), be32(chunk + 16));
    if (kind == 7 && 8 <= length)
        printf(" %u", be32(chunk + 4));
    if (kind == 6 || kind == 9)
        for (uint32_t at = 4; at < length && at < 64; at++)
            printf("%s%02x", at == 4 ? " " : "", chunk[at]);
}

void print_packet(const char *what, enum side to, const uint8_t *bytes, size_t length) {
    printf("%11.3f %s to %s %zu:", (double)world->now / 1e6, what, to == OURS ? "ours" : "usrsctp", length);
    for (size_t at = 12; at + 4 <= length;) {
        uint32_t size = be16(bytes + at + 2);
        if (size < 4 || length < at + size)
            break;
        print_chunk(bytes + at, size);
        at += (size + 3) / 4 * 4;
        if (at + 4 <= length)
            printf(",");
    }
    printf("\n");
}
