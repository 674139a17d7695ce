/* SPDX-License-Identifier: Apache-2.0 */
/*
 * A file that takes its name when all of it is on disk. Until then it is a temporary file beside it, which nobody else
 * has; a name that is a link, or anything but a regular file, is left alone.
 */
#ifndef OUTPUT_H
#define OUTPUT_H

#include <stddef.h>

#include "status.h"

struct output {
    const char *path;
    char *temporary;
    int file;           /* -1 while none is open */
    char wrong[160];    /* why the last call failed */
    enum status status; /* and what the program exits with then: STATUS_DISK or STATUS_NAME */
};

/* Makes the temporary file. The path stays the caller's. These return 1, or 0 with what is wrong. */
int output_open(struct output *output, const char *path);

int output_write(struct output *output, const void *bytes, size_t length);

/* Puts it on disk, gives it its name and puts that on disk. Whatever comes of it, the temporary file is gone. */
int output_finish(struct output *output);

/* Removes the temporary file, if there is one. */
void output_discard(struct output *output);

/* Writes all of it. Returns 1, or 0 with errno. */
int write_all(int file, const void *bytes, size_t length);

/* Puts on disk which names the folder of this path has. Returns 1, or 0 with errno. */
int sync_folder_of(const char *path);

#endif
