/* SPDX-License-Identifier: Apache-2.0 */
#define _GNU_SOURCE
#include "log.h"

#include <errno.h>
#include <fcntl.h>
#include <poll.h>
#include <stdio.h>
#include <sys/mman.h>
#include <unistd.h>

#include "link.h"

/* How long a text may wait for a reader, in milliseconds, unless the one before was dropped. */
#define PATIENCE 500

/* A pipe that is ready takes so many bytes at once. */
#define PIECE 4096

/* Shared by the processes. */
static struct shared {
    unsigned long dropped; /* texts since the last one that was written */
    int unread;            /* the last text was dropped */
} *shared;

static int lock; /* a file without a name, for its lock */

int log_open(void)
{
    shared = mmap(NULL, sizeof *shared, PROT_READ | PROT_WRITE, MAP_SHARED | MAP_ANONYMOUS, -1, 0);
    lock = memfd_create("log", MFD_CLOEXEC);
    return shared != MAP_FAILED && lock >= 0;
}

/* The lock of a process that ends is free. */
static int set_lock(short type, long long until)
{
    struct flock whole = {.l_type = type, .l_whence = SEEK_SET};
    while (fcntl(lock, F_SETLK, &whole) < 0) {
        if ((errno != EAGAIN && errno != EACCES && errno != EINTR) || now_ms() >= until)
            return 0;
        poll(NULL, 0, 2);
    }
    return 1;
}

/* Whether the output takes a piece before this time. */
static int takes(long long until)
{
    struct pollfd ready = {.fd = STDOUT_FILENO, .events = POLLOUT};
    long long left = until - now_ms();
    return poll(&ready, 1, left > 0 ? (int)left : 0) > 0 && (ready.revents & POLLOUT) != 0;
}

static int write_pieces(const char *text, size_t length, long long until)
{
    while (length > 0) {
        if (!takes(until))
            return 0;
        ssize_t count = write(STDOUT_FILENO, text, length < PIECE ? length : PIECE);
        if (count < 0 && errno != EINTR && errno != EAGAIN)
            return 0;
        if (count > 0) {
            text += count;
            length -= (size_t)count;
        }
    }
    return 1;
}

static int write_dropped(long long until)
{
    char line[80];
    if (shared->dropped == 0)
        return 1;
    int length = snprintf(line, sizeof line, "\nlog: %lu printouts dropped, since nobody read\n", shared->dropped);
    return write_pieces(line, (size_t)length, until);
}

void log_write(const char *text, size_t length)
{
    long long until = now_ms() + (shared->unread ? 0 : PATIENCE);
    if (!set_lock(F_WRLCK, until)) {
        __atomic_fetch_add(&shared->dropped, 1, __ATOMIC_RELAXED);
        return;
    }
    int written = write_dropped(until);
    if (written) {
        __atomic_store_n(&shared->dropped, 0, __ATOMIC_RELAXED);
        written = write_pieces(text, length, until);
    }
    shared->unread = !written;
    if (!written)
        __atomic_fetch_add(&shared->dropped, 1, __ATOMIC_RELAXED);
    set_lock(F_UNLCK, until);
}
