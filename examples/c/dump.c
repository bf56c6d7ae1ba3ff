/* SPDX-License-Identifier: Apache-2.0 */
/* The packets of a short association as a capture: a line for each, with direction, moment and bytes as text2pcap reads them, and below it
 * behind # what its chunks say.
 *     ./dump | text2pcap -D -t %H:%M:%S. -l 248 - dump.pcap && tshark -r dump.pcap
 * (248 is LINKTYPE_SCTP: packets without IP.) */
#include "shelfpigeon.h"
#include <stdio.h>
#include <stdlib.h>

static void must(const char *what, uint32_t answer) {
    if (answer != PIGEON_OK) {
        fprintf(stderr, "%s: %s\n", what, pigeon_answer_text(answer));
        exit(1);
    }
}

/* A line for text2pcap: the direction, O or I, the moment, an offset and the bytes. Then the chunks, each as a comment. */
static void dump(char direction, uint64_t now, const uint8_t *bytes, size_t length) {
    char text[4096];
    size_t needed;
    unsigned seconds = (unsigned)(now / 1000000000);
    printf("%c %02u:%02u:%02u.%06u 0000", direction, seconds / 3600, seconds / 60 % 60, seconds % 60, (unsigned)(now % 1000000000 / 1000));
    for (size_t i = 0; i < length; i++)
        printf(" %02x", bytes[i]);
    printf("\n");
    if (pigeon_describe_packet(bytes, length, &needed, text, sizeof text) != PIGEON_OK)
        return;
    for (char *line = text, *end; *line; line = end + 1) {
        end = strchr(line, '\n');
        printf("# %.*s\n", (int)(end - line), line);
    }
    printf("\n");
}

/* What is ready is kept until it is taken, and so are records of messages that were given up. */
static void let_go(pigeon_socket *end) {
    const uint8_t *payload;
    pigeon_message message;
    pigeon_given_up record;
    while (pigeon_borrow_message(end, &message, &payload) == PIGEON_OK) {}
    while (pigeon_next_given_up(end, &record) == PIGEON_OK) {}
}

static int pass(char direction, pigeon_socket *from, pigeon_socket *to, uint64_t now) {
    const uint8_t *bytes;
    pigeon_event event = PIGEON_EVENT;
    int packets = 0;
    while (pigeon_borrow_event(from, &event, &bytes) == PIGEON_OK)
        if (event.kind == PIGEON_SEND_PACKET) {
            dump(direction, now, bytes, event.length);
            must("handle_input", pigeon_handle_input(to, bytes, event.length));
            let_go(to);
            packets++;
        }
    return packets;
}

int main(void) {
    pigeon_socket a = PIGEON_NO_HANDLE, b = PIGEON_NO_HANDLE;
    pigeon_options options = PIGEON_OPTIONS;
    pigeon_send_options plainly = PIGEON_SEND_OPTIONS;
    uint8_t seed[PIGEON_SEED_SIZE] = {1}, other[PIGEON_SEED_SIZE] = {2}; /* a product takes them from the system's random source */
    uint64_t now = 0;
    must("options", pigeon_options_for_webrtc(&options));
    must("new", pigeon_new(&a, &options, seed));
    must("new", pigeon_new(&b, &options, other));
    must("connect", pigeon_connect(&a));
    must("send", pigeon_send(&a, 1, 51, (const uint8_t *)"hello", 5, &plainly));
    for (int turn = 0; turn < 20; turn++) {
        now += 10000000;
        must("advance_time", pigeon_advance_time(&a, now));
        must("advance_time", pigeon_advance_time(&b, now));
        int packets = pass('O', &a, &b, now) + pass('I', &b, &a, now);
        if (turn == 15)
            must("shutdown", pigeon_shutdown(&a));
        if (packets == 0 && turn > 15)
            break;
    }
    pigeon_free(&a);
    pigeon_free(&b);
}
