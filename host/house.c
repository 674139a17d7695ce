/* SPDX-License-Identifier: Apache-2.0 */
#include "house.h"

#include <errno.h>
#include <stdio.h>
#include <stdlib.h>
#include <string.h>

#include "layout.h"
#include "print.h"
#include "text.h"

/* A text may be longer than the records that it stands for. */
#define MOST_TEXT_BYTES (1 << 20)

uint16_t house_self(const struct house *house)
{
    return (uint16_t)number_at(house->bytes + 1);
}

size_t record_size(uint8_t command)
{
    static const size_t sizes[] = {3, 4, LAVUTREMO_CREDENTIAL_BYTES, LAVUTREMO_CREDENTIAL_BYTES, 9, 9};
    int known = command >= LAVUTREMO_RECORD_SELF && command <= LAVUTREMO_RECORD_ACCESS;
    return known ? sizes[command - LAVUTREMO_RECORD_SELF] : 0;
}

/* Reads a file into the buffer. Returns its length, or -1 after saying why not. */
static long read_file(const char *path, char *to, size_t most)
{
    FILE *file = strcmp(path, "-") == 0 ? stdin : fopen(path, "rb");
    if (file == NULL) {
        fprintf(stderr, "%s: %s\n", path, strerror(errno));
        return -1;
    }
    size_t length = fread(to, 1, most, file);
    int failed = ferror(file), longer = length == most && fgetc(file) != EOF;
    if (failed)
        fprintf(stderr, "%s: cannot be read\n", path);
    else if (longer)
        fprintf(stderr, "%s: longer than %zu bytes\n", path, most);
    if (file != stdin)
        fclose(file);
    return failed || longer ? -1 : (long)length;
}

/* Says which record is refused: the last of the shortest run of records that is. */
static void explain(const char *path, const struct house *house, unsigned number)
{
    size_t at = 0, size;
    while (at < house->length && (size = record_size(house->bytes[at])) != 0 && size <= house->length - at &&
           lavutremo_check(house->bytes, at + size) == 0)
        at += size;
    fprintf(stderr, "%s: byte %zu: refused %u: %s\n", path, at, number,
            record_refusal_words(number, house->bytes[at]));
}

static int take_records(const char *path, const char *bytes, size_t length, struct house *house)
{
    if (length > sizeof house->bytes) {
        fprintf(stderr, "%s: refused %u: %s\n", path, LAVUTREMO_LENGTH, refusal_words(LAVUTREMO_LENGTH));
        return 0;
    }
    memcpy(house->bytes, bytes, length);
    house->length = length;
    unsigned number = lavutremo_number(lavutremo_check(house->bytes, house->length));
    if (number != 0)
        explain(path, house, number);
    return number == 0;
}

static int take_text(const char *path, const char *text, size_t length, struct house *house)
{
    struct text_error error;
    if (text_to_house(text, length, house, &error))
        return 1;
    fprintf(stderr, "%s:%u:%u: %s\n", path, error.line, error.column, error.what);
    return 0;
}

enum status house_from_file(const char *path, struct house *house)
{
    char *content = malloc(MOST_TEXT_BYTES);
    long length = -1;
    int sound = 0;
    if (content == NULL)
        fprintf(stderr, "%s: no memory\n", path);
    else
        length = read_file(path, content, MOST_TEXT_BYTES);
    if (length > 0 && content[0] == LAVUTREMO_RECORD_SELF)
        sound = take_records(path, content, (size_t)length, house);
    else if (length >= 0)
        sound = take_text(path, content, (size_t)length, house);
    free(content);
    if (length < 0)
        return STATUS_DISK;
    return sound ? STATUS_SUCCESS : STATUS_REFUSED;
}

int load_house(const char *path, struct house *house)
{
    return house_from_file(path, house) == STATUS_SUCCESS;
}
