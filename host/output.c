/* SPDX-License-Identifier: Apache-2.0 */
#define _POSIX_C_SOURCE 200809L
#include "output.h"

#include <errno.h>
#include <fcntl.h>
#include <stdio.h>
#include <stdlib.h>
#include <string.h>
#include <sys/stat.h>
#include <unistd.h>

int write_all(int file, const void *bytes, size_t length)
{
    const char *at = bytes;
    while (length > 0) {
        ssize_t count = write(file, at, length);
        if (count < 0 && errno != EINTR)
            return 0;
        if (count > 0) {
            at += count;
            length -= (size_t)count;
        }
    }
    return 1;
}

/* The length of the folder's part of a path, its slash included. */
static size_t folder_length(const char *path)
{
    const char *slash = strrchr(path, '/');
    return slash == NULL ? 0 : (size_t)(slash - path) + 1;
}

/* The path's folder and this name in it; NULL if there is no memory. */
static char *beside(const char *path, const char *name)
{
    size_t folder = folder_length(path), size = folder + strlen(name) + 1;
    char *made = malloc(size);
    if (made != NULL)
        snprintf(made, size, "%.*s%s", (int)folder, path, name);
    return made;
}

int sync_folder_of(const char *path)
{
    char *folder = beside(path, ".");
    if (folder == NULL)
        return 0;
    int file = open(folder, O_RDONLY | O_DIRECTORY);
    free(folder);
    if (file < 0)
        return 0;
    int synced = fsync(file) == 0;
    close(file);
    return synced;
}

static int say(struct output *output, const char *what, const char *why)
{
    output->status = STATUS_DISK;
    snprintf(output->wrong, sizeof output->wrong, "%s%s%s", what, why[0] != '\0' ? ": " : "", why);
    return 0;
}

/* Whether the name is free or that of a regular file, whose mode is then kept. */
static int may_take(struct output *output, mode_t *mode)
{
    struct stat status;
    size_t length = strlen(output->path);
    if (length == 0 || output->path[length - 1] == '/')
        return say(output, "is no name of a file", "");
    if (lstat(output->path, &status) < 0) {
        mode_t mask = umask(0);
        umask(mask);
        *mode = 0666 & ~mask;
        return errno == ENOENT || say(output, "cannot be written", strerror(errno));
    }
    *mode = status.st_mode & 0777;
    if (S_ISLNK(status.st_mode))
        return say(output, "is a symbolic link, and none is written through", "");
    return S_ISREG(status.st_mode) || say(output, "is there and no regular file", "");
}

int output_open(struct output *output, const char *path)
{
    mode_t mode;
    *output = (struct output){.path = path, .file = -1};
    if (!may_take(output, &mode))
        return 0;
    output->temporary = beside(path, ".lavutremo-XXXXXX");
    if (output->temporary == NULL)
        return say(output, "cannot be written", strerror(ENOMEM));
    output->file = mkstemp(output->temporary);
    if (output->file >= 0)
        return 1;
    say(output, "no temporary file can be made beside it", strerror(errno));
    free(output->temporary);
    output->temporary = NULL;
    return 0;
}

int output_write(struct output *output, const void *bytes, size_t length)
{
    return write_all(output->file, bytes, length) || say(output, "cannot be written", strerror(errno));
}

void output_discard(struct output *output)
{
    if (output->file >= 0)
        close(output->file);
    if (output->temporary != NULL)
        unlink(output->temporary);
    free(output->temporary);
    output->temporary = NULL;
    output->file = -1;
}

int output_finish(struct output *output)
{
    mode_t mode;
    int named = may_take(output, &mode), done = named;
    if (done && (fchmod(output->file, mode) < 0 || fsync(output->file) < 0))
        done = say(output, "cannot be put on disk", strerror(errno));
    if (done && rename(output->temporary, output->path) < 0)
        named = done = say(output, "cannot be given its name", strerror(errno));
    if (!named)
        output->status = STATUS_NAME;
    if (done) {
        free(output->temporary);
        output->temporary = NULL;
        done = sync_folder_of(output->path) || say(output, "its name cannot be put on disk", strerror(errno));
    }
    output_discard(output);
    return done;
}
