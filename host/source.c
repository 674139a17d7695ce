/* SPDX-License-Identifier: Apache-2.0 */
#define _POSIX_C_SOURCE 200809L
#include "source.h"

#include <errno.h>
#include <fcntl.h>
#include <string.h>
#include <unistd.h>

#include "transfer.h"

void source_say(struct source *source, const char *what)
{
    snprintf(source->words, sizeof source->words, "%.240s: %s\n", source->path, what);
}

static int cannot(struct source *source, const char *why)
{
    char what[120];
    snprintf(what, sizeof what, "cannot be served: %s", why);
    source_say(source, what);
    if (source->file >= 0)
        close(source->file);
    source->file = -1;
    return 0;
}

static int unchanged(const struct stat *one, const struct stat *other)
{
    return one->st_dev == other->st_dev && one->st_ino == other->st_ino && one->st_size == other->st_size &&
           one->st_mtim.tv_sec == other->st_mtim.tv_sec && one->st_mtim.tv_nsec == other->st_mtim.tv_nsec &&
           one->st_ctim.tv_sec == other->st_ctim.tv_sec && one->st_ctim.tv_nsec == other->st_ctim.tv_nsec;
}

int source_open(struct source *source)
{
    struct stat status;
    source->file = open(source->path, O_RDONLY | O_NONBLOCK | O_CLOEXEC);
    if (source->file < 0 || fstat(source->file, &status) < 0)
        return cannot(source, strerror(errno));
    if (!S_ISREG(status.st_mode))
        return cannot(source, "it is no regular file");
    if (unchanged(&status, &source->status))
        return 1;
    if (!digest_file(&source->digest, source->file) || lseek(source->file, 0, SEEK_SET) < 0)
        return cannot(source, strerror(errno));
    source->status = status;
    return 1;
}

int source_check(struct source *source, const char *path)
{
    *source = (struct source){.path = path, .file = -1};
    if (!source_open(source))
        return 0;
    close(source->file);
    source->file = -1;
    return 1;
}

void source_print(const struct source *source, FILE *to)
{
    fprintf(to, "file %s, %lld bytes, SHA-256 %s\n", source->path, (long long)source->status.st_size,
            source->digest.text);
}

/* Reads some bytes of the file. Returns how many, 0 at its end or after an error, with errno. */
static size_t read_some(int file, uint8_t *to, size_t most)
{
    ssize_t count;
    errno = 0;
    do
        count = read(file, to, most);
    while (count < 0 && errno == EINTR);
    return count < 0 ? 0 : (size_t)count;
}

/* Returns NULL, or why not all of it was sent. */
static const char *send_bytes(struct source *source, int connection, long long pause, struct digest *sent)
{
    static uint8_t buffer[65536];
    uint64_t left = (uint64_t)source->status.st_size;
    struct patience patience = patience_for(left, pause);
    for (int i = 0; i < 8; i++)
        buffer[i] = (uint8_t)(left >> (56 - 8 * i));
    enum link_result result = transfer_write(connection, buffer, 8, &patience);
    while (result == LINK_DONE && left > 0) {
        size_t count = read_some(source->file, buffer, left < sizeof buffer ? (size_t)left : sizeof buffer);
        if (count == 0)
            return errno != 0 ? strerror(errno) : "it has become shorter";
        digest_add(sent, buffer, count);
        left -= count;
        result = transfer_write(connection, buffer, count, &patience);
    }
    return result == LINK_DONE ? NULL : link_words(result);
}

void source_send(struct source *source, int connection, long long pause)
{
    struct digest sent;
    char what[140];
    digest_begin(&sent);
    const char *wrong = send_bytes(source, connection, pause, &sent);
    digest_done(&sent);
    close(source->file);
    source->file = -1;
    if (wrong != NULL)
        snprintf(what, sizeof what, "not all of it was sent: %s", wrong);
    else if (strcmp(sent.text, source->digest.text) != 0)
        snprintf(what, sizeof what, "sent, but it changed meanwhile: SHA-256 %s", sent.text);
    else
        snprintf(what, sizeof what, "sent");
    source_say(source, what);
}
