/* SPDX-License-Identifier: Apache-2.0 */
#define _DEFAULT_SOURCE
#include "digest.h"

#include <errno.h>
#include <unistd.h>

void digest_begin(struct digest *digest)
{
    SHA256Init(&digest->context);
    digest->text[0] = '\0';
}

void digest_add(struct digest *digest, const void *bytes, size_t length)
{
    SHA256Update(&digest->context, bytes, length);
}

const char *digest_done(struct digest *digest)
{
    return SHA256End(&digest->context, digest->text);
}

int digest_file(struct digest *digest, int file)
{
    uint8_t buffer[65536];
    ssize_t count;
    digest_begin(digest);
    while ((count = read(file, buffer, sizeof buffer)) != 0) {
        if (count > 0)
            digest_add(digest, buffer, (size_t)count);
        else if (errno != EINTR)
            return 0;
    }
    digest_done(digest);
    return 1;
}
