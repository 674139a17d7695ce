/* SPDX-License-Identifier: Apache-2.0 */
/* SHA-256 by libmd, as 64 hexadecimal digits. */
#ifndef DIGEST_H
#define DIGEST_H

#include <stddef.h>
#include <stdint.h>
#include <sys/types.h>

#include <sha2.h>

struct digest {
    SHA2_CTX context;
    char text[SHA256_DIGEST_STRING_LENGTH]; /* once it is done */
};

void digest_begin(struct digest *digest);
void digest_add(struct digest *digest, const void *bytes, size_t length);
const char *digest_done(struct digest *digest);

/* Of the whole file from its current place on. Returns 1, or 0 with errno if it cannot be read. */
int digest_file(struct digest *digest, int file);

#endif
