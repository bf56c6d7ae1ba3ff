/* What the two ends are led through, in variants by number. Each answers whether the variant is one. */
#ifndef SCENARIOS_H
#define SCENARIOS_H

#include <stdbool.h>
#include <stdint.h>

/* Packets of an end that are lost in turn. */
#define LOST 24

bool shake_hands(uint64_t which);
bool lose_one(uint64_t which);
bool send_sizes(uint64_t which);
bool interleave(uint64_t which);
bool give_up(uint64_t which);
bool reset_streams(uint64_t which);
bool abort_one(uint64_t which);
bool restart(uint64_t which);
bool come_out_of_the_blue(uint64_t which);
bool rest(uint64_t which);
bool storm(uint64_t which);

#endif
