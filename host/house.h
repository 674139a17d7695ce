/* SPDX-License-Identifier: Apache-2.0 */
/* House tables as the calls take them, and how they are read from a file. */
#ifndef HOUSE_H
#define HOUSE_H

#include <stddef.h>
#include <stdint.h>

#include "lavutremo.h"
#include "status.h"

struct house {
    uint8_t bytes[LAVUTREMO_MOST_TABLES_BYTES];
    size_t length;
};

/* The house's own entity. The tables must be sound. */
uint16_t house_self(const struct house *house);

/* The size of the record that begins with this byte, or 0 if none does. */
size_t record_size(uint8_t command);

/*
 * Reads tables from a file, "-" being the standard input: records if the first byte is 0x10, else text. They are sound
 * then: lavutremo_check has been asked. Returns STATUS_SUCCESS, or after printing on the standard error what is wrong and
 * where, STATUS_DISK if the file cannot be read, STATUS_REFUSED if it is wrong.
 */
enum status house_from_file(const char *path, struct house *house);

/* The same. Returns 1 or 0. */
int load_house(const char *path, struct house *house);

#endif
