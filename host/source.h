/* SPDX-License-Identifier: Apache-2.0 */
/* The file that is served. */
#ifndef SOURCE_H
#define SOURCE_H

#include <stdio.h>
#include <sys/stat.h>

#include "digest.h"

struct source {
    const char *path;
    int file;           /* -1 while it is not open */
    struct stat status; /* when its SHA-256 was worked out */
    struct digest digest;
    char words[400]; /* a line: what became of it */
};

/* Whether it is a regular file that can be read. Works out its SHA-256. Returns 1, or 0 with words. */
int source_check(struct source *source, const char *path);

/* Opens it, and works out its SHA-256 again if it has changed. Returns 1, or 0 with words. */
int source_open(struct source *source);

/* Its path, length and SHA-256, a line. */
void source_print(const struct source *source, FILE *to);

/* Sends its length, eight bytes, and its bytes, closes it, and leaves words. */
void source_send(struct source *source, int connection, long long pause);

void source_say(struct source *source, const char *what);

#endif
