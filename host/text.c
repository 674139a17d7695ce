/* SPDX-License-Identifier: Apache-2.0 */
#include "text.h"

#include <stdlib.h>
#include <string.h>

#include "layout.h"
#include "print.h"
#include "read.h"

static const char *const class_words[] = {"issuer-def", "issuer-all", "subject-all"};

static int read_class(struct cursor *cursor, uint8_t *class)
{
    for (uint8_t i = 0; i < 3; i++)
        if (take_word(cursor, class_words[i])) {
            *class = (uint8_t)(LAVUTREMO_CLASS_ISSUER_DEF + i);
            return 1;
        }
    return fail(cursor, cursor->at, "a class is expected: issuer-def, issuer-all or subject-all");
}

static int read_name(struct cursor *cursor, uint8_t *operands)
{
    return read_number(cursor, operands) && read_class(cursor, operands + 2);
}

static int read_sensitive(struct cursor *cursor, uint8_t *operands)
{
    if (!read_role(cursor, operands))
        return 0;
    if (!take_word(cursor, "ack"))
        return fail(cursor, cursor->at, "ack is expected, and the role's Ack role");
    return read_role(cursor, operands + 4);
}

static int read_access(struct cursor *cursor, uint8_t *operands)
{
    return read_role(cursor, operands) && read_role(cursor, operands + 4);
}

/* The records by their words. The first key_size bytes of a record do not occur twice. */
static const struct kind {
    uint8_t command;
    const char *word;
    int (*read)(struct cursor *, uint8_t *operands);
    size_t key_size;
} kinds[] = {
    {LAVUTREMO_RECORD_SELF, "self", read_number, 1},
    {LAVUTREMO_RECORD_NAME, "class", read_name, 3},
    {LAVUTREMO_RECORD_ISSUED, "issued", read_credential, LAVUTREMO_CREDENTIAL_BYTES},
    {LAVUTREMO_RECORD_STORED, "stored", read_credential, LAVUTREMO_CREDENTIAL_BYTES},
    {LAVUTREMO_RECORD_SENSITIVE, "sensitive", read_sensitive, 5},
    {LAVUTREMO_RECORD_ACCESS, "access", read_access, 5},
};

struct record {
    uint8_t bytes[LAVUTREMO_CREDENTIAL_BYTES];
    unsigned line, column;
};

/* Three bytes are the shortest record. */
struct records {
    struct record list[LAVUTREMO_MOST_TABLES_BYTES / 3 + 1];
    size_t count, size;
};

static int set_error(struct text_error *error, unsigned line, unsigned column, const char *what)
{
    error->line = line;
    error->column = column;
    snprintf(error->what, sizeof error->what, "%s", what);
    return 0;
}

static int read_record(struct cursor *cursor, struct record *record)
{
    for (size_t i = 0; i < sizeof kinds / sizeof kinds[0]; i++) {
        if (!take_word(cursor, kinds[i].word))
            continue;
        record->bytes[0] = kinds[i].command;
        return kinds[i].read(cursor, record->bytes + 1) &&
               (at_end(cursor) || fail(cursor, cursor->at, "nothing more is expected in this line"));
    }
    return fail(cursor, cursor->at, "a record begins with self, class, issued, stored, sensitive or access");
}

static int read_line(const char *line, size_t length, unsigned number, struct records *records,
                     struct text_error *error)
{
    struct cursor cursor;
    cursor_on(&cursor, line, length);
    if (at_end(&cursor))
        return 1;
    struct record *record = &records->list[records->count];
    *record = (struct record){.line = number, .column = (unsigned)(cursor.at - line) + 1};
    if (!read_record(&cursor, record))
        return set_error(error, number, (unsigned)(cursor.where - line) + 1, cursor.wrong);
    records->count++;
    records->size += record_size(record->bytes[0]);
    if (records->size > LAVUTREMO_MOST_TABLES_BYTES)
        return set_error(error, number, record->column, "the tables are longer than 4,096 bytes");
    return 1;
}

static int read_lines(const char *text, size_t length, struct records *records, struct text_error *error)
{
    const char *end = text + length;
    for (unsigned number = 1; text < end; number++) {
        const char *newline = memchr(text, '\n', (size_t)(end - text));
        const char *line_end = newline == NULL ? end : newline;
        if (!read_line(text, (size_t)(line_end - text), number, records, error))
            return 0;
        text = newline == NULL ? end : newline + 1;
    }
    return 1;
}

/* By bytes, unused ones being zero; equal ones by line. */
static int compare(const void *a, const void *b)
{
    const struct record *one = a, *other = b;
    int order = memcmp(one->bytes, other->bytes, sizeof one->bytes);
    return order != 0 ? order : (one->line > other->line) - (one->line < other->line);
}

/* Whether these two may not stand together. */
static int repeats(const struct record *one, const struct record *other)
{
    return memcmp(one->bytes, other->bytes, kinds[one->bytes[0] - LAVUTREMO_RECORD_SELF].key_size) == 0;
}

/* Finds repeats among the sorted records, and tells the later line. */
static int no_repeats(const struct records *records, struct text_error *error)
{
    for (size_t i = 1; i < records->count; i++) {
        const struct record *one = &records->list[i - 1], *other = &records->list[i];
        if (!repeats(one, other))
            continue;
        const struct record *early = one->line < other->line ? one : other, *late = early == one ? other : one;
        set_error(error, late->line, late->column, "");
        snprintf(error->what, sizeof error->what, "this repeats what line %u gives", early->line);
        return 0;
    }
    return 1;
}

const char *record_refusal_words(unsigned number, uint8_t command)
{
    if (number == LAVUTREMO_CLASS && command == LAVUTREMO_RECORD_ISSUED)
        return "a class rule is broken: an issued credential's head is listed as issuer-def or issuer-all, and its body "
               "fits";
    if (number == LAVUTREMO_CLASS && command == LAVUTREMO_RECORD_STORED)
        return "a class rule is broken: a stored credential's head is subject-all, and so is its body";
    if (number == LAVUTREMO_CLASS && command == LAVUTREMO_RECORD_SENSITIVE)
        return "a class rule is broken: a sensitive role is subject-all";
    if (number == LAVUTREMO_CLASS && command == LAVUTREMO_RECORD_ACCESS)
        return "a class rule is broken: the role must be sensitive, and stored <- self";
    if (number == LAVUTREMO_ORDER)
        return "out of order, repeated, self missing, or one too many: 64 names, 64 credentials of each storage, "
               "32 sensitive roles and 32 access records are the most";
    return refusal_words(number);
}

/* Writes the records one after another, and asks after each whether the tables are sound so far. */
static int write_records(const struct records *records, struct house *house, struct text_error *error)
{
    house->length = 0;
    for (size_t i = 0; i < records->count; i++) {
        const struct record *record = &records->list[i];
        size_t size = record_size(record->bytes[0]);
        memcpy(house->bytes + house->length, record->bytes, size);
        house->length += size;
        unsigned number = lavutremo_number(lavutremo_check(house->bytes, house->length));
        if (number == 0)
            continue;
        set_error(error, record->line, record->column, "");
        snprintf(error->what, sizeof error->what, "refused %u: %s", number,
                 record_refusal_words(number, record->bytes[0]));
        return 0;
    }
    return 1;
}

/* Where the text begins: behind a byte order mark of UTF-8. One of UTF-16 is an error. */
static int skip_mark(const char **text, size_t *length, struct text_error *error)
{
    if (*length >= 3 && memcmp(*text, "\xef\xbb\xbf", 3) == 0) {
        *text += 3;
        *length -= 3;
    }
    if (*length >= 2 && (memcmp(*text, "\xff\xfe", 2) == 0 || memcmp(*text, "\xfe\xff", 2) == 0))
        return set_error(error, 1, 1, "a byte order mark of UTF-16: the text must be ASCII or UTF-8");
    return 1;
}

int text_to_house(const char *text, size_t length, struct house *house, struct text_error *error)
{
    struct records records;
    records.count = records.size = 0;
    if (!skip_mark(&text, &length, error) || !read_lines(text, length, &records, error))
        return 0;
    qsort(records.list, records.count, sizeof records.list[0], compare);
    if (!no_repeats(&records, error))
        return 0;
    if (records.count == 0 || records.list[0].bytes[0] != LAVUTREMO_RECORD_SELF)
        return set_error(error, 1, 1, "no line says self");
    return write_records(&records, house, error);
}

static void print_record(FILE *to, const uint8_t *record)
{
    const uint8_t *operands = record + 1;
    fprintf(to, "%s ", kinds[record[0] - LAVUTREMO_RECORD_SELF].word);
    switch (record[0]) {
    case LAVUTREMO_RECORD_SELF:
        fprintf(to, "%u", number_at(operands));
        break;
    case LAVUTREMO_RECORD_NAME:
        fprintf(to, "%u %s", number_at(operands), class_words[operands[2] - LAVUTREMO_CLASS_ISSUER_DEF]);
        break;
    case LAVUTREMO_RECORD_ISSUED:
    case LAVUTREMO_RECORD_STORED:
        print_credential(to, operands);
        break;
    default:
        print_role(to, operands);
        fprintf(to, record[0] == LAVUTREMO_RECORD_SENSITIVE ? " ack " : " ");
        print_role(to, operands + 4);
    }
    fprintf(to, "\n");
}

void house_to_text(FILE *to, const struct house *house)
{
    for (size_t at = 0; at < house->length; at += record_size(house->bytes[at]))
        print_record(to, house->bytes + at);
}
