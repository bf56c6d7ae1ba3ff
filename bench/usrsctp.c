/* Two sockets of usrsctp over a link in memory, without threads. The arguments are nine numbers: the bytes of a message, how many
 * messages, packets lost of a hundred, milliseconds from one end to the other, streams taken in turn, 1 where messages are
 * interleaved, packets that the link keeps under way, further associations that are opened and left idle, and 1 where packets have
 * their checksum. Time is virtual: what usrsctp asks of the clock is answered here. */
#include <errno.h>
#include <stdint.h>
#include <stdio.h>
#include <stdlib.h>
#include <string.h>
#include <sys/time.h>
#include <time.h>
#include <usrsctp.h>

/* In usrsctp's own headers, but not in the one that it installs. */
#ifndef SCTP_INTERLEAVING_SUPPORTED
#define SCTP_INTERLEAVING_SUPPORTED 0x00001206
#endif

#define AHEAD (1 << 20)
#define ROOM (1 << 26)

struct packet {
    uint64_t moment;
    size_t length;
    unsigned char *bytes;
};

/* What is under way to an end: a ring of packets, whose size is a power of two. */
struct way {
    struct packet *ring;
    size_t size, first, length;
    uint64_t count, salt;
};

struct end {
    struct socket *socket;
    struct way way;
    struct end *peer;
    uint16_t port;
};

struct plan {
    uint64_t size, count, lost, delay, streams, interleaves, kept, idle, is_summed;
};

static struct plan plan;
static uint64_t now, taken, sent;
static size_t largest;

int gettimeofday(struct timeval *restrict moment, void *restrict zone)
{
    (void)zone;
    moment->tv_sec = 1000 + (time_t)(now / 1000);
    moment->tv_usec = (suseconds_t)(now % 1000 * 1000);
    return 0;
}

static void stop(const char *why)
{
    fprintf(stderr, "%s: %s\n", why, strerror(errno));
    exit(1);
}

static void *made(size_t size)
{
    void *it = malloc(size);
    if (it == NULL)
        stop("no memory");
    return it;
}

static uint64_t mixed(uint64_t number)
{
    uint64_t a = (number ^ (number >> 30)) * 0xbf58476d1ce4e5b9u;
    uint64_t b = (a ^ (a >> 27)) * 0x94d049bb133111ebu;
    return b ^ (b >> 31);
}

static void grow(struct way *way)
{
    size_t size = way->size ? 2 * way->size : 4;
    struct packet *ring = made(size * sizeof *ring);
    for (size_t i = 0; i < way->length; i++)
        ring[i] = way->ring[(way->first + i) & (way->size - 1)];
    free(way->ring);
    way->ring = ring;
    way->size = size;
    way->first = 0;
}

/* A packet goes on its way to the peer of the end that sends it, or is lost, which its number decides. */
static int carry(void *from, void *bytes, size_t length, uint8_t service, uint8_t whole)
{
    struct way *way = &((struct end *)from)->peer->way;
    (void)service;
    (void)whole;
    if (largest < length)
        largest = length;
    way->count++;
    if (mixed(2 * way->count + way->salt) % 100 < plan.lost)
        return 0;
    if (way->length == way->size)
        grow(way);
    unsigned char *copy = made(length);
    memcpy(copy, bytes, length);
    way->ring[(way->first + way->length++) & (way->size - 1)] = (struct packet){now + plan.delay, length, copy};
    return 0;
}

static int take(struct socket *socket, union sctp_sockstore address, void *data, size_t length, struct sctp_rcvinfo about,
                int flags, void *end)
{
    (void)socket;
    (void)address;
    (void)about;
    (void)end;
    if (data == NULL)
        return 1;
    if (!(flags & MSG_NOTIFICATION) && (flags & MSG_EOR)) {
        if (length != plan.size)
            stop("a message has another length");
        taken++;
    }
    free(data);
    return 1;
}

/* Hands in what has come. Answers whether anything had. */
static int take_packets(struct end *end, uint64_t kept)
{
    struct way *way = &end->way;
    int is_any = 0;
    while (kept < way->length && way->ring[way->first].moment <= now) {
        struct packet packet = way->ring[way->first];
        way->first = (way->first + 1) & (way->size - 1);
        way->length--;
        usrsctp_conninput(end, packet.bytes, packet.length, 0);
        free(packet.bytes);
        is_any = 1;
    }
    return is_any;
}

static uint64_t ahead(void)
{
    uint64_t least = plan.size ? AHEAD / plan.size : AHEAD, most = plan.streams < 1000 ? 1000 : plan.streams;
    if (plan.kept)
        return plan.kept + 2;
    least = least < most ? least : most;
    return least < 4 ? 4 : least;
}

static void send_messages(struct end *from, const void *payload)
{
    uint64_t most = taken + ahead();
    most = plan.count < most ? plan.count : most;
    while (sent < most) {
        struct sctp_sndinfo about = {.snd_sid = (uint16_t)(sent % plan.streams), .snd_ppid = 53};
        if (usrsctp_sendv(from->socket, payload, plan.size, NULL, 0, &about, sizeof about, SCTP_SENDV_SNDINFO, 0) < 0)
            stop("a message was refused");
        sent++;
    }
}

static int turn(struct end *from, struct end *to, uint64_t kept)
{
    int has_come = take_packets(to, kept), has_answer = take_packets(from, 0);
    return has_come || has_answer;
}

/* Time passes up to the next packet, and ten milliseconds at most: usrsctp doesn't tell when its next timer expires. */
static void wait_for(struct end *from, struct end *to)
{
    uint64_t next = now + 10;
    struct way *ways[] = {&from->way, &to->way};
    for (int i = 0; i < 2; i++)
        if (ways[i]->length && ways[i]->ring[ways[i]->first].moment < next)
            next = ways[i]->ring[ways[i]->first].moment;
    uint32_t passed = (uint32_t)(next - now);
    now = next;
    usrsctp_handle_timers(passed);
}

static void step(struct end *from, struct end *to)
{
    if (!turn(from, to, plan.kept) && !(plan.kept && turn(from, to, 0)))
        wait_for(from, to);
}

static void set(struct socket *socket, int level, int name, const void *value, size_t length)
{
    if (usrsctp_setsockopt(socket, level, name, value, (socklen_t)length) < 0)
        stop("an option was refused");
}

static struct sockaddr_conn address_of(struct end *end)
{
    struct sockaddr_conn address = {.sconn_family = AF_CONN, .sconn_port = htons(end->port), .sconn_addr = end};
    return address;
}

/* A socket with the options of the comparison: packets of at most 1,188 bytes, room for 64 MiB, whole messages. */
static void open_end(struct end *end, uint64_t salt)
{
    int yes = 1, room = ROOM, level = 2;
    uint32_t point = ROOM / 2;
    struct sctp_initmsg streams = {.sinit_num_ostreams = (uint16_t)plan.streams, .sinit_max_instreams = 65535};
    struct sctp_paddrparams path = {.spp_flags = SPP_PMTUD_DISABLE, .spp_pathmtu = 1176};
    struct sctp_assoc_value interleaves = {.assoc_id = SCTP_FUTURE_ASSOC, .assoc_value = 1};
    struct sockaddr_conn address = address_of(end);
    memset(&end->way, 0, sizeof end->way);
    end->way.salt = salt;
    usrsctp_register_address(end);
    end->socket = usrsctp_socket(AF_CONN, SOCK_STREAM, IPPROTO_SCTP, take, NULL, 0, end);
    if (end->socket == NULL)
        stop("no socket");
    usrsctp_set_non_blocking(end->socket, 1);
    set(end->socket, SOL_SOCKET, SO_SNDBUF, &room, sizeof room);
    set(end->socket, SOL_SOCKET, SO_RCVBUF, &room, sizeof room);
    set(end->socket, IPPROTO_SCTP, SCTP_NODELAY, &yes, sizeof yes);
    set(end->socket, IPPROTO_SCTP, SCTP_INITMSG, &streams, sizeof streams);
    set(end->socket, IPPROTO_SCTP, SCTP_PARTIAL_DELIVERY_POINT, &point, sizeof point);
    set(end->socket, IPPROTO_SCTP, SCTP_PEER_ADDR_PARAMS, &path, sizeof path);
    if (plan.interleaves) {
        set(end->socket, IPPROTO_SCTP, SCTP_FRAGMENT_INTERLEAVE, &level, sizeof level);
        set(end->socket, IPPROTO_SCTP, SCTP_INTERLEAVING_SUPPORTED, &interleaves, sizeof interleaves);
    }
    if (usrsctp_bind(end->socket, (struct sockaddr *)&address, sizeof address) < 0)
        stop("bind");
}

static int is_open(struct end *end)
{
    struct sctp_status status;
    socklen_t length = sizeof status;
    memset(&status, 0, sizeof status);
    return usrsctp_getsockopt(end->socket, IPPROTO_SCTP, SCTP_STATUS, &status, &length) == 0 && status.sstat_state == SCTP_ESTABLISHED;
}

/* Opens an association: both ends connect, as peers of WebRTC do. Each has a port of its own, by which usrsctp finds its ends. */
static void open_pair(struct end *from, struct end *to)
{
    static uint16_t port = 1024;
    struct end *ends[] = {from, to};
    from->peer = to;
    to->peer = from;
    from->port = to->port = port++;
    for (int i = 0; i < 2; i++)
        open_end(ends[i], (uint64_t)i);
    for (int i = 0; i < 2; i++) {
        struct sockaddr_conn address = address_of(ends[i]);
        if (usrsctp_connect(ends[i]->socket, (struct sockaddr *)&address, sizeof address) < 0 && errno != EINPROGRESS)
            stop("connect");
    }
    while (!is_open(from) || !is_open(to))
        if (!turn(from, to, 0))
            wait_for(from, to);
    while (turn(from, to, 0))
        ;
}

static void set_all(void)
{
    usrsctp_init_nothreads(0, carry, NULL);
    if (!plan.is_summed)
        usrsctp_enable_crc32c_offload();
    usrsctp_sysctl_set_sctp_ecn_enable(0);
    usrsctp_sysctl_set_sctp_asconf_enable(0);
    usrsctp_sysctl_set_sctp_auto_asconf(0);
    usrsctp_sysctl_set_sctp_auth_enable(0);
    usrsctp_sysctl_set_sctp_nrsack_enable(0);
    usrsctp_sysctl_set_sctp_pktdrop_enable(0);
    usrsctp_sysctl_set_sctp_initial_cwnd((uint32_t)plan.kept + 10);
    usrsctp_sysctl_set_sctp_max_chunks_on_queue(1 << 20);
    usrsctp_sysctl_set_sctp_nr_outgoing_streams_default((uint32_t)plan.streams);
}

int main(int count, char **words)
{
    uint64_t *numbers[] = {&plan.size,    &plan.count,       &plan.lost, &plan.delay,
                           &plan.streams, &plan.interleaves, &plan.kept, &plan.idle, &plan.is_summed};
    struct end from, to;
    struct timespec start, end;
    if (count != 10) {
        fprintf(stderr, "nine numbers are asked for\n");
        return 1;
    }
    for (int i = 0; i < 9; i++)
        *numbers[i] = strtoull(words[i + 1], NULL, 10);
    unsigned char *payload = made(plan.size + 1);
    memset(payload, 7, plan.size);
    set_all();
    for (uint64_t i = 0; i < plan.idle; i++) {
        struct end *pair = made(2 * sizeof *pair);
        open_pair(&pair[0], &pair[1]);
        for (int end = 0; end < 2; end++) {
            free(pair[end].way.ring);
            memset(&pair[end].way, 0, sizeof pair[end].way);
        }
    }
    open_pair(&from, &to);
    uint64_t opened = now;
    clock_gettime(CLOCK_MONOTONIC, &start);
    while (taken < plan.count) {
        send_messages(&from, payload);
        step(&from, &to);
    }
    clock_gettime(CLOCK_MONOTONIC, &end);
    double seconds = (double)(end.tv_sec - start.tv_sec) + (double)(end.tv_nsec - start.tv_nsec) / 1e9;
    printf("%llu messages of %llu bytes: %llu packets there, %llu back, %llu ms, %.0f messages a second\n",
           (unsigned long long)taken, (unsigned long long)plan.size, (unsigned long long)to.way.count,
           (unsigned long long)from.way.count, (unsigned long long)(now - opened), (double)taken / seconds);
    if (1188 < largest)
        stop("a packet is larger than 1,188 bytes");
    exit(0);
}
