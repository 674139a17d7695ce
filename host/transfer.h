/* SPDX-License-Identifier: Apache-2.0 */
/*
 * How long the bytes of a file may take: each byte that moves gives so much time to the next, and on the whole there is
 * a second more for each KiB.
 */
#ifndef TRANSFER_H
#define TRANSFER_H

#include <stdint.h>

#include "link.h"
#include "status.h"

struct patience {
    long long pause; /* milliseconds that nothing may move */
    long long until; /* of now_ms: when all must be over */
};

struct patience patience_for(uint64_t length, long long pause);

/* Until when the next byte may take. */
long long patience_now(const struct patience *patience);

/*
 * Writes so many bytes. What moves is what arrives at the other end: the system takes the next bytes only when many have
 * arrived.
 */
enum link_result transfer_write(int socket, const uint8_t *from, size_t length, const struct patience *patience);

/* The exit status of a result that is not LINK_DONE. */
enum status link_status(enum link_result result);

#endif
