/* SPDX-License-Identifier: Apache-2.0 */
/* One program with three stacks: this one, usrsctp, and the calls of Linux's. */
#include <stdio.h>

#include "shelfpigeon.h"

/* (the headers of the other two can't be included together) */
void usrsctp_init(uint16_t port, void *output, void *print);
int usrsctp_finish(void);
int sctp_bindx(int socket, void *addresses, int count, int flags);

int main(void) {
    pigeon_socket socket = PIGEON_NO_HANDLE;
    pigeon_options options = PIGEON_OPTIONS;
    uint8_t seed[PIGEON_SEED_SIZE] = {1};
    uint32_t state;
    usrsctp_init(0, NULL, NULL);
    pigeon_default_options(&options);
    if (pigeon_version() != PIGEON_VERSION_NUMBER || pigeon_new(&socket, &options, seed) != PIGEON_OK || pigeon_state(&socket, &state) != PIGEON_OK)
        return 1;
    pigeon_free(&socket);
    printf("shelfpigeon %s beside usrsctp and lksctp: %s\n", PIGEON_VERSION, sctp_bindx(-1, NULL, 0, 0) < 0 ? "linked" : "no");
    return usrsctp_finish();
}
