/* The end of usrsctp. */
#define _GNU_SOURCE
#include "world.h"
#include <arpa/inet.h>
#include <errno.h>
#include <stdio.h>
#include <stdlib.h>
#include <string.h>
#include <usrsctp.h>

/* In usrsctp's own headers, but not in the one that it installs. */
#ifndef SCTP_INTERLEAVING_SUPPORTED
#define SCTP_INTERLEAVING_SUPPORTED 0x00001206
#endif

#define ROOM (1 << 26)

static char key; /* by its address usrsctp knows the link */
static struct socket *theirs, *listener;
static bool is_forgetting;

/* A message of a stream that came in parts. */
static struct part {
    uint8_t *bytes;
    size_t length, room;
} parts[STREAMS][2];

static int send_packet(void *link, void *bytes, size_t length, uint8_t service, uint8_t whole) {
    (void)link;
    (void)service;
    (void)whole;
    if (!is_forgetting)
        carry(THEIRS, bytes, length);
    return 0;
}

void start_theirs(void) {
    usrsctp_init_nothreads(0, send_packet, NULL);
    usrsctp_sysctl_set_sctp_ecn_enable(0);
    usrsctp_sysctl_set_sctp_asconf_enable(0);
    usrsctp_sysctl_set_sctp_auto_asconf(0);
    usrsctp_sysctl_set_sctp_auth_enable(0);
    usrsctp_sysctl_set_sctp_max_chunks_on_queue(1 << 20);
    usrsctp_sysctl_set_sctp_nr_outgoing_streams_default(STREAMS);
    if (world->setup.crosses)
        usrsctp_enable_crc32c_offload();
    usrsctp_register_address(&key);
}

static void notify(const union sctp_notification *note) {
    struct told *told = &world->told[THEIRS];
    if (world->is_loud)
        printf("%11.3f usrsctp is told %#x, flags %#x, state %u\n", (double)world->now / 1e6, note->sn_header.sn_type,
               note->sn_header.sn_flags, note->sn_header.sn_type == SCTP_ASSOC_CHANGE ? note->sn_assoc_change.sac_state : 0);
    switch (note->sn_header.sn_type) {
    case SCTP_ASSOC_CHANGE:
        told->connected += note->sn_assoc_change.sac_state == SCTP_COMM_UP;
        told->restarted += note->sn_assoc_change.sac_state == SCTP_RESTART;
        told->closed += note->sn_assoc_change.sac_state == SCTP_SHUTDOWN_COMP;
        if (note->sn_assoc_change.sac_state == SCTP_COMM_LOST || note->sn_assoc_change.sac_state == SCTP_CANT_STR_ASSOC)
            told->aborted++;
        break;
    case SCTP_STREAM_RESET_EVENT: {
        const struct sctp_stream_reset_event *event = &note->sn_strreset_event;
        unsigned streams = (unsigned)((event->strreset_length - sizeof *event) / 2);
        if (event->strreset_flags & (SCTP_STREAM_RESET_DENIED | SCTP_STREAM_RESET_FAILED))
            told->denied += streams;
        else if (event->strreset_flags & SCTP_STREAM_RESET_OUTGOING_SSN)
            told->reset += streams;
        else
            told->was_reset += streams;
        break;
    }
    case SCTP_SEND_FAILED_EVENT: {
        size_t place = ntohl(note->sn_send_failed_event.ssfe_info.snd_ppid);
        if (world->is_loud)
            printf("%11.3f usrsctp gives up a fragment of message %zu\n", (double)world->now / 1e6, place);
        if (place < world->count)
            world->messages[place].given_up = true;
        break;
    }
    case SCTP_PARTIAL_DELIVERY_EVENT: told->errors++; break;
    default: break;
    }
}

/* What usrsctp hands out: a notification, or a message or a part of one. */
static int take(struct socket *socket, union sctp_sockstore address, void *data, size_t length, struct sctp_rcvinfo about,
                int flags, void *link) {
    (void)address;
    (void)link;
    if (data == NULL || is_forgetting) {
        free(data);
        return 1;
    }
    (void)socket;
    if (flags & MSG_NOTIFICATION) {
        notify(data);
    } else {
        if (STREAMS <= about.rcv_sid)
            wrong("usrsctp hands out a message of stream %u", about.rcv_sid);
        struct part *part = &parts[about.rcv_sid][(about.rcv_flags & SCTP_UNORDERED) != 0];
        while (part->room < part->length + length)
            part->bytes = grown(part->bytes, part->room, 1, &part->room);
        memcpy(part->bytes + part->length, data, length);
        part->length += length;
        if (flags & MSG_EOR) {
            take_message(THEIRS, about.rcv_sid, ntohl(about.rcv_ppid), part->bytes, part->length);
            part->length = 0;
        }
    }
    free(data);
    return 1;
}

static void set(int level, int name, const void *value, size_t length) {
    struct socket *socket = theirs != NULL ? theirs : listener;
    if (usrsctp_setsockopt(socket, level, name, value, (socklen_t)length) < 0)
        wrong("usrsctp refuses option %d of level %d: %s", name, level, strerror(errno));
}

static struct sockaddr_conn address(void) {
    struct sockaddr_conn it;
    memset(&it, 0, sizeof it);
    it.sconn_family = AF_CONN;
    it.sconn_port = htons(5000);
    it.sconn_addr = &key;
    return it;
}

static void set_all(void) {
    int yes = 1, room = ROOM, level = 2;
    uint32_t point = ROOM / 2;
    struct sctp_initmsg streams = {.sinit_num_ostreams = STREAMS, .sinit_max_instreams = 65535};
    struct sctp_paddrparams path;
    struct sctp_assoc_value value = {.assoc_id = SCTP_FUTURE_ASSOC, .assoc_value = 1};
    static const uint16_t events[] = {SCTP_ASSOC_CHANGE, SCTP_STREAM_RESET_EVENT, SCTP_SEND_FAILED_EVENT, SCTP_PARTIAL_DELIVERY_EVENT};
    memset(&path, 0, sizeof path);
    path.spp_flags = SPP_PMTUD_DISABLE;
    path.spp_pathmtu = 1176;
    set(SOL_SOCKET, SO_SNDBUF, &room, sizeof room);
    set(SOL_SOCKET, SO_RCVBUF, &room, sizeof room);
    set(IPPROTO_SCTP, SCTP_NODELAY, &yes, sizeof yes);
    set(IPPROTO_SCTP, SCTP_INITMSG, &streams, sizeof streams);
    set(IPPROTO_SCTP, SCTP_PARTIAL_DELIVERY_POINT, &point, sizeof point);
    set(IPPROTO_SCTP, SCTP_PEER_ADDR_PARAMS, &path, sizeof path);
    set(IPPROTO_SCTP, SCTP_ENABLE_STREAM_RESET, &value, sizeof value);
    for (size_t i = 0; i < sizeof events / sizeof *events; i++) {
        struct sctp_event event = {.se_assoc_id = SCTP_FUTURE_ASSOC, .se_type = events[i], .se_on = 1};
        set(IPPROTO_SCTP, SCTP_EVENT, &event, sizeof event);
    }
    if (world->setup.interleaves) {
        set(IPPROTO_SCTP, SCTP_FRAGMENT_INTERLEAVE, &level, sizeof level);
        set(IPPROTO_SCTP, SCTP_INTERLEAVING_SUPPORTED, &value, sizeof value);
    }
}

void open_theirs(bool listens) {
    struct sockaddr_conn own = address();
    struct socket *socket = usrsctp_socket(AF_CONN, SOCK_STREAM, IPPROTO_SCTP, take, NULL, 0, &key);
    if (socket == NULL)
        wrong("usrsctp_socket: %s", strerror(errno));
    *(listens ? &listener : &theirs) = socket;
    usrsctp_set_non_blocking(socket, 1);
    set_all();
    if (usrsctp_bind(socket, (struct sockaddr *)&own, sizeof own) < 0)
        wrong("usrsctp_bind: %s", strerror(errno));
    if (listens && usrsctp_listen(socket, 1) < 0)
        wrong("usrsctp_listen: %s", strerror(errno));
}

void connect_theirs(void) {
    struct sockaddr_conn peer = address();
    if (usrsctp_connect(theirs, (struct sockaddr *)&peer, sizeof peer) < 0 && errno != EINPROGRESS)
        wrong("usrsctp_connect: %s", strerror(errno));
}

void accept_theirs(void) {
    if (theirs == NULL && listener != NULL && (theirs = usrsctp_accept(listener, NULL, NULL)) != NULL)
        usrsctp_set_non_blocking(theirs, 1);
}

bool is_theirs_open(void) { return theirs != NULL; }

void shut_theirs(void) {
    if (usrsctp_shutdown(theirs, SHUT_WR) < 0)
        wrong("usrsctp_shutdown: %s", strerror(errno));
}

void abort_theirs(void) {
    struct linger linger = {.l_onoff = 1, .l_linger = 0};
    set(SOL_SOCKET, SO_LINGER, &linger, sizeof linger);
    usrsctp_close(theirs);
    theirs = NULL;
}

void forget_theirs(void) {
    is_forgetting = true;
    if (theirs != NULL)
        abort_theirs();
    if (listener != NULL)
        usrsctp_close(listener);
    listener = NULL;
    is_forgetting = false;
}

void reset_theirs(const uint16_t *streams, size_t count) {
    struct sctp_reset_streams *asked = calloc(1, sizeof *asked + count * sizeof *streams);
    if (asked == NULL)
        wrong("no memory");
    asked->srs_flags = SCTP_STREAM_RESET_OUTGOING;
    asked->srs_number_streams = (uint16_t)count;
    memcpy(asked->srs_stream_list, streams, count * sizeof *streams);
    set(IPPROTO_SCTP, SCTP_RESET_STREAMS, asked, sizeof *asked + count * sizeof *streams);
    free(asked);
}

void hand_to_theirs(const uint8_t *bytes, size_t length) { usrsctp_conninput(&key, bytes, length, 0); }

void tick_theirs(uint32_t millis) { usrsctp_handle_timers(millis); }

bool send_theirs(size_t place) {
    struct message *m = &world->messages[place];
    uint8_t *bytes = payload_of(place);
    struct sctp_sendv_spa how;
    memset(&how, 0, sizeof how);
    how.sendv_flags = SCTP_SEND_SNDINFO_VALID;
    how.sendv_sndinfo.snd_sid = m->stream;
    how.sendv_sndinfo.snd_ppid = htonl((uint32_t)place);
    how.sendv_sndinfo.snd_flags = m->unordered ? SCTP_UNORDERED : 0;
    if (m->retransmissions != UINT32_MAX || m->lifetime) {
        bool by_count = m->retransmissions != UINT32_MAX;
        how.sendv_flags |= SCTP_SEND_PRINFO_VALID;
        how.sendv_prinfo.pr_policy = by_count ? SCTP_PR_SCTP_RTX : SCTP_PR_SCTP_TTL;
        how.sendv_prinfo.pr_value = by_count ? m->retransmissions : (uint32_t)(m->lifetime / MILLI);
    }
    ssize_t length = usrsctp_sendv(theirs, bytes, m->length, NULL, 0, &how, sizeof how, SCTP_SENDV_SPA, 0);
    free(bytes);
    if (length < 0 && errno != EWOULDBLOCK && errno != EAGAIN)
        wrong("usrsctp_sendv: %s", strerror(errno));
    return length >= 0;
}
