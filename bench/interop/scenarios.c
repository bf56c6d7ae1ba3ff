/* What the two ends are led through. Each function is one scenario, in as many variants as `scenarios` says. */
#include "scenarios.h"
#include "world.h"

static const char *const sides[] = {"ours", "usrsctp", "both"};

static bool are_connected(void) { return world->told[OURS].connected && world->told[THEIRS].connected; }

static bool is_over(enum side side) { return world->told[side].closed || world->told[side].aborted; }

static bool are_over(void) { return is_over(OURS) && is_over(THEIRS); }

static void meet(enum side who) {
    open_theirs(who == OURS);
    if (who != OURS)
        connect_theirs();
    if (who != THEIRS)
        connect_ours();
    if (!go(are_connected, 300 * SECOND))
        wrong("no association where %s connects: ours is told %u times, usrsctp %u", sides[who], world->told[OURS].connected,
              world->told[THEIRS].connected);
    if (world->setup.interleaves != interleaves_ours())
        wrong("interleaving isn't what both ends ask for");
}

static void settle(void) {
    if (go(is_settled, 1200 * SECOND))
        return;
    size_t place = first_unsettled();
    struct message *m = &world->messages[place];
    wrong("message %zu of %s isn't settled: %u bytes, stream %u%s%s%s%s%s", place, sides[m->from], m->length, m->stream,
          m->unordered ? ", unordered" : "", m->accepted ? "" : ", not accepted", m->taken ? ", taken" : "",
          m->given_up ? ", given up" : "", m->ended ? ", ended" : "");
}

/* Nothing is emitted twice, and nothing that wasn't asked for. */
static void check(void) {
    for (int side = OURS; side <= THEIRS; side++) {
        struct told *told = &world->told[side];
        if (told->connected != 1 || told->closed + told->aborted > 1 || told->restarted)
            wrong("%s is told %u connected, %u closed, %u aborted, %u restarted", sides[side], told->connected, told->closed,
                  told->aborted, told->restarted);
    }
    for (size_t i = 0; i < world->count; i++)
        if (world->messages[i].delivered && world->messages[i].taken == 0)
            wrong("message %zu is told as delivered, and isn't there", i);
}

/* Where packets are lost, an end that has closed may answer one that comes late with an ABORT, when its last answer was lost
 * (RFC 9260 section 8.4). */
static void part(enum side who) {
    bool is_lossy = world->setup.lost || world->setup.late || world->setup.drops;
    world->bears_aborts = is_lossy;
    if (who != THEIRS)
        shut_ours();
    if (who != OURS)
        shut_theirs();
    if (!go(are_over, 300 * SECOND))
        wrong("no end where %s shuts down: ours is told %u, usrsctp %u", sides[who], is_over(OURS), is_over(THEIRS));
    check();
    if (!is_lossy && (world->told[OURS].aborted || world->told[THEIRS].aborted))
        wrong("a shutdown by %s became an abort", sides[who]);
}

static void greet(void) {
    for (uint16_t i = 0; i < 3; i++) {
        add_message(OURS, i, 10, false);
        add_message(THEIRS, i, 10, false);
    }
    add_message(OURS, 3, 3000, true);
    add_message(THEIRS, 3, 3000, true);
}

/* Each end, or both, connects; each end, or both, shuts down. */
bool shake_hands(uint64_t which) {
    open_world((struct setup){.seed = which, .crosses = which / 9 % 2, .interleaves = which / 18 % 2});
    meet(which % 3);
    greet();
    settle();
    part(which / 3 % 3);
    return true;
}

/* The same, with one packet lost. Answers whether there was such a packet. */
bool lose_one(uint64_t which) {
    struct setup setup = {.seed = which, .drops = true, .dropped_from = which % 2, .dropped = which / 2 % LOST};
    uint64_t way = which / 2 / LOST;
    open_world(setup);
    meet(way % 3);
    greet();
    settle();
    part(way / 3);
    return world->has_dropped;
}

/* Messages of 1 byte to 256 KiB both ways. */
bool send_sizes(uint64_t which) {
    static const uint32_t sizes[] = {1,    2,    3,    4,     5,     16,    100,   999,    1000,   1120,   1140,
                                     1200, 1400, 2300, 4096,  10000, 16384, 65535, 65536,  100000, 262143, 262144};
    open_world((struct setup){.seed = which, .interleaves = which % 2, .lost = which / 4 % 2 * 3});
    meet(which / 8 % 3);
    for (size_t i = 0; i < sizeof sizes / sizeof *sizes; i++) {
        add_message(OURS, (uint16_t)(i % 5), sizes[i], which / 2 % 2);
        add_message(THEIRS, (uint16_t)(i % 5), sizes[i], which / 2 % 2);
    }
    for (uint32_t size = 1; size < 1300; size += 7) {
        add_message(OURS, 7, size, which / 2 % 2);
        add_message(THEIRS, 7, size, which / 2 % 2);
    }
    settle();
    part(which % 2);
    return true;
}

/* Many long messages on several streams at once, where messages are interleaved. */
bool interleave(uint64_t which) {
    open_world((struct setup){.seed = which, .interleaves = true, .lost = (unsigned)(which / 3 % 4)});
    meet(which % 3);
    for (uint16_t i = 0; i < 60; i++) {
        add_message(OURS, i % 6, 1 + (uint32_t)drawn(30000), i % 5 == 0);
        add_message(THEIRS, i % 6, 1 + (uint32_t)drawn(30000), i % 5 == 0);
    }
    settle();
    if (world->chunks[0][OURS] || world->chunks[0][THEIRS])
        wrong("a DATA chunk was sent where messages are interleaved");
    if (world->chunks[64][OURS] == 0 || world->chunks[64][THEIRS] == 0)
        wrong("no I-DATA chunk was sent");
    part(which % 2);
    return true;
}

/* Messages that are given up, by the count of their retransmissions or by their age, among reliable ones. The low bits say which. */
bool give_up(uint64_t which) {
    static const uint32_t counts[] = {0, 1, 3};
    static const uint64_t ages[] = {20, 100, 1000};
    bool by_age = which & 1, is_unordered = which >> 1 & 1, is_long = which >> 2 & 1;
    enum side from = which >> 3 & 1;
    open_world((struct setup){.seed = which, .interleaves = which >> 4 & 1, .lost = 15, .late = which >> 5 & 1 ? 10 : 0});
    meet(which % 3);
    for (uint16_t i = 0; i < 60; i++) {
        size_t place = add_message(from, i % 4, is_long ? 1 + (uint32_t)drawn(9000) : 1 + (uint32_t)drawn(900), is_unordered);
        if (i % 3 == 0)
            continue;
        if (by_age)
            world->messages[place].lifetime = ages[which / 64 % 3] * MILLI;
        else
            world->messages[place].retransmissions = counts[which / 64 % 3];
    }
    add_message(from == OURS ? THEIRS : OURS, 1, 100, false);
    settle();
    world->setup.lost = 0;
    wait_for(10 * SECOND);
    add_message(from, 1, 5000, false);
    settle();
    part(which % 2);
    return true;
}

static bool is_reset_told(void) {
    struct told *ours = &world->told[OURS], *theirs = &world->told[THEIRS];
    return ours->reset + ours->denied == ours->asked && theirs->reset + theirs->denied == theirs->asked;
}

static void reset(enum side who) {
    static const uint16_t streams[] = {1, 2};
    if (who != THEIRS) {
        reset_ours(streams, 2);
        world->told[OURS].asked += 2;
    }
    if (who != OURS) {
        reset_theirs(streams, 2);
        world->told[THEIRS].asked += 2;
    }
}

static void reset_and_send(enum side who, bool at_once) {
    greet();
    if (at_once)
        go(is_quiet, 0);
    else
        settle();
    reset(who);
    if (!go(is_reset_told, 300 * SECOND))
        wrong("a reset by %s isn't answered", sides[who]);
    if (world->told[OURS].denied || world->told[THEIRS].denied)
        wrong("a reset by %s is denied", sides[who]);
    greet();
    settle();
}

/* Streams are reset by each end and both, twice, with messages before, between and after; and one packet is lost. */
bool reset_streams(uint64_t which) {
    struct setup setup = {.seed = which, .drops = true, .dropped_from = which % 2, .dropped = which / 2 % LOST};
    uint64_t way = which / 2 / LOST;
    setup.interleaves = way / 3 % 2;
    open_world(setup);
    meet(which % 3);
    reset_and_send(way % 3, false);
    reset_and_send(way % 3, way / 6);
    if (way % 3 != THEIRS && world->told[THEIRS].was_reset != 4)
        wrong("usrsctp is told of the reset of %u streams of ours", world->told[THEIRS].was_reset);
    if (way % 3 != OURS && world->told[OURS].was_reset != 4)
        wrong("ours is told of the reset of %u streams of usrsctp", world->told[OURS].was_reset);
    part(which % 2);
    return world->has_dropped;
}

static bool is_ours_over(void) { return is_over(OURS); }

static bool is_theirs_over(void) { return is_over(THEIRS); }

/* An end aborts, at rest or with messages under way; the ABORT is lost or not. */
bool abort_one(uint64_t which) {
    enum side who = which % 2;
    bool is_busy = which / 2 % 2;
    open_world((struct setup){.seed = which, .interleaves = which / 4 % 2});
    meet(which / 8 % 3);
    for (uint16_t i = 0; is_busy && i < 20; i++) {
        add_message(OURS, i % 4, 20000, false);
        add_message(THEIRS, i % 4, 20000, false);
    }
    wait_for(is_busy ? 25 * MILLI : 2 * SECOND);
    world->bears_aborts = true;
    if (who == OURS)
        abort_ours();
    else
        abort_theirs();
    if (!go(who == OURS ? is_theirs_over : is_ours_over, 10 * SECOND))
        wrong("%s isn't told of the other's abort", sides[1 - who]);
    if (world->told[1 - who].aborted != 1)
        wrong("%s is told %u closed and %u aborted after an abort", sides[1 - who], world->told[1 - who].closed,
              world->told[1 - who].aborted);
    wait_for(60 * SECOND);
    return true;
}

static bool is_restarted(void) { return world->told[THEIRS].restarted && world->told[OURS].connected == 2; }

static bool is_restarted_there(void) { return world->told[OURS].restarted && world->told[THEIRS].connected == 2; }

/* An end forgets the association and connects anew (RFC 9260 section 5.2); one packet of what follows is lost. */
bool restart(uint64_t which) {
    enum side who = which % 2;
    open_world((struct setup){.seed = which, .dropped_from = which / 2 % 2, .interleaves = which / 4 / LOST % 2});
    meet(OURS);
    greet();
    settle();
    world->setup.dropped = world->sent[world->setup.dropped_from] + which / 4 % LOST;
    world->setup.drops = true;
    if (who == OURS) {
        forget_ours();
        open_ours(which + 1000);
        connect_ours();
    } else {
        forget_theirs();
        open_theirs(false);
        connect_theirs();
    }
    for (int side = 0; side < 2; side++)
        for (size_t i = 0; i < STREAMS; i++)
            world->last_taken[side][i] = 0;
    if (!go(who == OURS ? is_restarted : is_restarted_there, 300 * SECOND))
        wrong("no restart by %s: ours is told %u and %u, usrsctp %u and %u", sides[who], world->told[OURS].connected,
              world->told[OURS].restarted, world->told[THEIRS].connected, world->told[THEIRS].restarted);
    greet();
    settle();
    shut_ours();
    if (!go(are_over, 300 * SECOND))
        wrong("no end after a restart");
    return world->has_dropped;
}

/* usrsctp forgets the association, and answers what comes for it with an ABORT (RFC 9260 section 8.4). */
bool come_out_of_the_blue(uint64_t which) {
    open_world((struct setup){.seed = which, .interleaves = which % 2});
    meet(which / 2 % 3);
    greet();
    settle();
    forget_theirs();
    open_theirs(true);
    world->bears_aborts = true;
    add_message(OURS, 1, 100, false);
    if (!go(is_ours_over, 60 * SECOND))
        wrong("ours isn't told that the peer has no such association");
    return true;
}

/* Nothing is sent for twenty minutes but heartbeats; then the link is cut, for a while or for good. */
bool rest(uint64_t which) {
    open_world((struct setup){.seed = which, .interleaves = which % 2});
    meet(which / 2 % 3);
    greet();
    settle();
    wait_for(1200 * SECOND);
    for (int side = OURS; side <= THEIRS; side++)
        if (world->chunks[4][side] < 20 || world->chunks[5][1 - side] != world->chunks[4][side])
            wrong("%s sends %u heartbeats, and %u are answered", sides[side], (unsigned)world->chunks[4][side],
                  (unsigned)world->chunks[5][1 - side]);
    check();
    world->is_cut = true;
    if (which / 6 % 2) {
        add_message(OURS, 1, 100, false);
        add_message(THEIRS, 1, 100, false);
        wait_for(20 * SECOND);
        world->is_cut = false;
        settle();
        part(which % 2);
        return true;
    }
    world->bears_aborts = true;
    add_message(OURS, 1, 100, false);
    add_message(THEIRS, 1, 100, false);
    if (!go(are_over, 7200 * SECOND))
        wrong("an end isn't told that its peer is gone: ours %u, usrsctp %u", is_over(OURS), is_over(THEIRS));
    return true;
}

static void add_random(enum side from, bool gives_up) {
    uint32_t most = drawn(20) == 0 ? 262144 : drawn(3) ? 3000 : 40000;
    size_t place = add_message(from, (uint16_t)drawn(8), 1 + (uint32_t)drawn(most), drawn(4) == 0);
    if (gives_up && drawn(2)) {
        if (drawn(2))
            world->messages[place].lifetime = (10 + drawn(1000)) * MILLI;
        else
            world->messages[place].retransmissions = (uint32_t)drawn(4);
    }
}

/* Loss, duplication and reordering. Every fourth seed gives messages up, every fifth resets streams. */
bool storm(uint64_t which) {
    bool gives_up = which % 4 == 3;
    open_world((struct setup){.seed = which, .interleaves = which / 2 % 2, .lost = 5, .twice = 5, .late = 10, .delay = (1 + which % 40) * MILLI});
    meet(which % 3);
    for (int turn = 0; turn < 3; turn++) {
        for (int i = 0; i < 12; i++) {
            add_random(OURS, gives_up);
            add_random(THEIRS, gives_up);
        }
        settle();
        if (which % 5 == 0) {
            reset(which / 5 % 3);
            if (!go(is_reset_told, 600 * SECOND))
                wrong("a reset by %s isn't answered", sides[which / 5 % 3]);
        }
    }
    part(which / 3 % 3);
    return true;
}
