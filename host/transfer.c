/* SPDX-License-Identifier: Apache-2.0 */
#include "transfer.h"

struct patience patience_for(uint64_t length, long long pause)
{
    uint64_t seconds = length >> 10, most = 1000000000000; /* so that the sum has room */
    return (struct patience){pause, now_ms() + pause + 1000 * (long long)(seconds < most ? seconds : most)};
}

long long patience_now(const struct patience *patience)
{
    long long pause = now_ms() + patience->pause;
    return pause < patience->until ? pause : patience->until;
}

/* How long to wait before looking whether bytes have arrived, in milliseconds. */
#define TICK 200

enum link_result transfer_write(int socket, const uint8_t *from, size_t length, const struct patience *patience)
{
    enum link_result result = LINK_DONE;
    int before = link_unarrived(socket);
    long long until = patience_now(patience);
    while (length > 0 && (result == LINK_DONE || (result == LINK_LATE && now_ms() < until))) {
        size_t count;
        long long tick = now_ms() + TICK;
        result = link_write_some(socket, from, length, &count, tick < until ? tick : until);
        int now = link_unarrived(socket);
        if (count > 0 || now < before)
            until = patience_now(patience);
        before = now;
        from += count;
        length -= count;
    }
    return length == 0 ? LINK_DONE : result;
}

enum status link_status(enum link_result result)
{
    return result == LINK_STOPPED ? STATUS_SIGNAL : STATUS_CONNECTION;
}
