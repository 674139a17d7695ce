/* SPDX-License-Identifier: Apache-2.0 */
#include "read.h"

#include <string.h>

#include "lavutremo.h"

void cursor_on(struct cursor *cursor, const char *line, size_t length)
{
    *cursor = (struct cursor){.at = line, .end = line + length};
}

int fail(struct cursor *cursor, const char *where, const char *what)
{
    if (cursor->wrong == NULL) {
        cursor->wrong = what;
        cursor->where = where;
    }
    return 0;
}

void skip_blanks(struct cursor *cursor)
{
    while (cursor->at < cursor->end && (*cursor->at == ' ' || *cursor->at == '\t' || *cursor->at == '\r'))
        cursor->at++;
}

int at_end(struct cursor *cursor)
{
    skip_blanks(cursor);
    return cursor->at == cursor->end || *cursor->at == '#';
}

/* Takes these characters if they come next. */
static int take(struct cursor *cursor, const char *characters)
{
    size_t length = strlen(characters);
    if ((size_t)(cursor->end - cursor->at) < length || memcmp(cursor->at, characters, length) != 0)
        return 0;
    cursor->at += length;
    return 1;
}

static int is_word_character(char character)
{
    return (character >= 'a' && character <= 'z') || (character >= '0' && character <= '9') || character == '-';
}

int take_word(struct cursor *cursor, const char *word)
{
    skip_blanks(cursor);
    const char *before = cursor->at;
    if (take(cursor, word) && (cursor->at == cursor->end || !is_word_character(*cursor->at)))
        return 1;
    cursor->at = before;
    return 0;
}

static int is_digit(const struct cursor *cursor)
{
    return cursor->at < cursor->end && *cursor->at >= '0' && *cursor->at <= '9';
}

/* Without blanks before it. */
static int read_digits(struct cursor *cursor, uint8_t *number)
{
    const char *start = cursor->at;
    unsigned value = 0;
    for (; is_digit(cursor) && value <= 65535; cursor->at++)
        value = 10 * value + (unsigned)(*cursor->at - '0');
    if (value == 0 || value > 65535)
        return fail(cursor, start, "a number from 1 to 65,535 is expected");
    number[0] = (uint8_t)(value >> 8);
    number[1] = (uint8_t)(value & 255);
    return 1;
}

int read_number(struct cursor *cursor, uint8_t *number)
{
    skip_blanks(cursor);
    return read_digits(cursor, number);
}

/* One to three numbers with dots between: an entity, a role or a linked role. Returns how many, 0 if they are wrong. */
static int read_dotted(struct cursor *cursor, uint8_t numbers[6])
{
    skip_blanks(cursor);
    for (int count = 0; count < 3;) {
        if (!read_digits(cursor, numbers + 2 * count))
            return 0;
        count++;
        if (!take(cursor, "."))
            return count;
    }
    return fail(cursor, cursor->at - 1, "a linked role has one entity and two names");
}

int read_role(struct cursor *cursor, uint8_t *role)
{
    uint8_t numbers[6];
    skip_blanks(cursor);
    const char *start = cursor->at;
    int count = read_dotted(cursor, numbers);
    if (count != 2)
        return fail(cursor, start, "a role is expected: entity.name");
    memcpy(role, numbers, 4);
    return 1;
}

/* The parts after the first, each greater than the one before. */
static int read_parts(struct cursor *cursor, uint8_t *expression)
{
    uint8_t count = 1;
    while (skip_blanks(cursor), take(cursor, "&")) {
        skip_blanks(cursor);
        const char *start = cursor->at;
        if (count == 4)
            return fail(cursor, start, "an intersection has two to four roles");
        uint8_t *part = expression + 2 + 4 * count;
        if (!read_role(cursor, part))
            return 0;
        if (memcmp(part - 4, part, 4) >= 0)
            return fail(cursor, start, "the roles of an intersection ascend by entity, then name");
        count++;
    }
    if (count > 1) {
        expression[0] = LAVUTREMO_KIND_INTERSECTION;
        expression[1] = count;
    }
    return 1;
}

int read_expression(struct cursor *cursor, uint8_t *expression)
{
    static const uint8_t kind_of[] = {0, LAVUTREMO_KIND_ENTITY, LAVUTREMO_KIND_ROLE, LAVUTREMO_KIND_LINKED};
    memset(expression, 0, LAVUTREMO_EXPRESSION_BYTES);
    skip_blanks(cursor);
    const char *start = cursor->at;
    int count = read_dotted(cursor, expression + 2);
    if (count == 0)
        return 0;
    expression[0] = kind_of[count];
    if (count == 2)
        return read_parts(cursor, expression);
    skip_blanks(cursor);
    if (take(cursor, "&"))
        return fail(cursor, start, "the parts of an intersection are roles");
    return 1;
}

int read_credential(struct cursor *cursor, uint8_t *operands)
{
    if (!read_role(cursor, operands))
        return 0;
    skip_blanks(cursor);
    if (!take(cursor, "<-"))
        return fail(cursor, cursor->at, "<- is expected");
    skip_blanks(cursor);
    const char *start = cursor->at;
    uint8_t *body = operands + 4;
    if (!read_expression(cursor, body))
        return 0;
    if (body[0] == LAVUTREMO_KIND_LINKED && memcmp(body + 2, operands, 2) != 0)
        return fail(cursor, start, "a linked body begins with the issuer");
    return 1;
}
