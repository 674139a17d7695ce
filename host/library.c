/* SPDX-License-Identifier: Apache-2.0 */
/* The calls of the host library over the parts that the programs use. */
#include "lavutremo_host.h"

#include <string.h>

#include "print.h"
#include "read.h"
#include "text.h"

/* Tables that are too long are none: every report on them is refused. */
static void lend(struct house *house, const uint8_t *tables, size_t length)
{
    house->length = length <= sizeof house->bytes ? length : 0;
    memcpy(house->bytes, tables, house->length);
}

static int set_error(struct lavutremo_text_error *error, unsigned line, unsigned column, const char *what)
{
    *error = (struct lavutremo_text_error){.line = line, .column = column};
    snprintf(error->what, sizeof error->what, "%s", what);
    return 0;
}

size_t lavutremo_text_to_tables(const char *text, size_t text_len, uint8_t *tables, struct lavutremo_text_error *error)
{
    struct house house;
    struct text_error wrong;
    if (!text_to_house(text, text_len, &house, &wrong)) {
        set_error(error, wrong.line, wrong.column, wrong.what);
        return 0;
    }
    memcpy(tables, house.bytes, house.length);
    return house.length;
}

unsigned lavutremo_tables_to_text(FILE *to, const uint8_t *tables, size_t tables_len)
{
    struct house house;
    unsigned number = lavutremo_number(lavutremo_check(tables, tables_len));
    lend(&house, tables, tables_len);
    if (number == 0)
        house_to_text(to, &house);
    return number;
}

/* Reads the whole text by this function. */
static int read_whole(int (*read)(struct cursor *, uint8_t *), const char *text, size_t length, uint8_t *to,
                      struct lavutremo_text_error *error)
{
    struct cursor cursor;
    cursor_on(&cursor, text, length);
    if (read(&cursor, to) && (at_end(&cursor) || fail(&cursor, cursor.at, "nothing more is expected")))
        return 1;
    return set_error(error, 1, (unsigned)(cursor.where - text) + 1, cursor.wrong);
}

int lavutremo_text_to_expression(const char *text, size_t text_len, uint8_t *expression,
                                 struct lavutremo_text_error *error)
{
    return read_whole(read_expression, text, text_len, expression, error);
}

int lavutremo_text_to_credential(const char *text, size_t text_len, uint8_t *operands,
                                 struct lavutremo_text_error *error)
{
    return read_whole(read_credential, text, text_len, operands, error);
}

void lavutremo_print_expression(FILE *to, const uint8_t *expression)
{
    print_expression(to, expression);
}

void lavutremo_print_credential(FILE *to, const uint8_t *operands)
{
    print_credential(to, operands);
}

void lavutremo_print_message(FILE *to, const uint8_t *tables, size_t tables_len, const uint8_t *negotiation,
                             const uint8_t *message, size_t message_len, const char *direction,
                             struct lavutremo_printed *printed)
{
    struct house house;
    lend(&house, tables, tables_len);
    print_message(to, &house, negotiation, message, message_len, direction, printed);
}

void lavutremo_print_commands(FILE *to, const uint8_t *message, size_t message_len, unsigned node_count)
{
    print_commands(to, message, message_len, node_count);
}

void lavutremo_print_graph(FILE *to, const uint8_t *tables, size_t tables_len, const uint8_t *negotiation)
{
    struct house house;
    lend(&house, tables, tables_len);
    print_graph(to, &house, negotiation);
}

const char *lavutremo_refusal_words(unsigned number)
{
    return refusal_words(number);
}

const char *lavutremo_end_words(unsigned end)
{
    return end_words(end);
}
