// SPDX-License-Identifier: Apache-2.0
// What compiled Rattle calls for memory, over malloc, realloc and free, for a target for which the kit has no such file: scripts/c-library
// compiles it. Nothing proves it.
#include <stdint.h>
#include <stdlib.h>

struct block {
    uint64_t is_made;
    void *at;
};

static char nothing;

static struct block block_at(void *at) {
    return (struct block){at != NULL, at != NULL ? at : &nothing};
}

// At most the alignment of malloc is asked for. A block of no bytes has an address of its own.
struct block rattle_alloc(uint64_t size, uint64_t align) {
    return block_at(malloc(size != 0 ? size : align));
}

struct block rattle_realloc(void *at, uint64_t from, uint64_t size, uint64_t align) {
    (void)from;
    return block_at(realloc(at, size != 0 ? size : align));
}

void rattle_dealloc(void *at) {
    free(at);
}
