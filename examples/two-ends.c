/* SPDX-License-Identifier: Apache-2.0 */
/*
 * two-ends MEDIATOR REQUESTER ENTITY NAME STORE: lets two ends negotiate in one process. MEDIATOR and REQUESTER are files
 * with their tables as records, as 'tables records' makes them. The mediator wants the role ENTITY.NAME proved of the
 * requester. Its negotiation, as it ended, is stored in STORE. Prints the end; exits with 0 if it is success.
 */
#include <stdio.h>
#include <stdlib.h>

#include "lavutremo.h"

struct end {
    uint8_t tables[LAVUTREMO_MOST_TABLES_BYTES + 1];
    size_t tables_len;
    uint8_t negotiation[LAVUTREMO_NEGOTIATION_BYTES];
};

/* Ends the program if a call was refused, or something else went wrong. */
static void must(int done, const char *what, unsigned number)
{
    if (done)
        return;
    fprintf(stderr, "two-ends: %s, %u\n", what, number);
    exit(2);
}

static void read_tables(const char *path, struct end *end)
{
    FILE *file = fopen(path, "rb");
    must(file != NULL, "tables cannot be read", 0);
    end->tables_len = fread(end->tables, 1, sizeof end->tables, file);
    fclose(file);
    unsigned number = lavutremo_number(lavutremo_check(end->tables, end->tables_len));
    must(number == 0, "tables refused", number);
}

/* The tables begin with 0x10 and the end's own entity, high byte first. */
static uint16_t self_of(const struct end *end)
{
    return (uint16_t)(end->tables[1] << 8 | end->tables[2]);
}

static void begin(struct end *end, uint16_t other, uint16_t entity, uint16_t name)
{
    unsigned number = lavutremo_number(lavutremo_begin(end->tables, end->tables_len, end->negotiation,
                                                       sizeof end->negotiation, other, entity, name));
    must(number == 0, "begin refused", number);
}

/* One message from the sender to the receiver. Returns how the negotiation has ended for the sender. */
static unsigned pass(struct end *sender, struct end *receiver)
{
    static uint8_t message[LAVUTREMO_MOST_MESSAGE_BYTES], scratch[LAVUTREMO_SCRATCH_BYTES];
    uint64_t answer = lavutremo_reply(sender->tables, sender->tables_len, sender->negotiation,
                                      sizeof sender->negotiation, message, sizeof message, scratch, sizeof scratch);
    must(lavutremo_number(answer) == 0, "reply refused", lavutremo_number(answer));
    unsigned number = lavutremo_number(lavutremo_take(receiver->tables, receiver->tables_len, receiver->negotiation,
                                                      sizeof receiver->negotiation, message, lavutremo_length(answer),
                                                      scratch, sizeof scratch));
    must(number == 0, "take refused", number);
    answer = lavutremo_report(sender->tables, sender->tables_len, sender->negotiation, sizeof sender->negotiation, 0);
    return lavutremo_end(answer);
}

static void store(const char *path, const struct end *end)
{
    FILE *file = fopen(path, "wb");
    must(file != NULL, "the negotiation cannot be stored", 0);
    size_t written = fwrite(end->negotiation, 1, sizeof end->negotiation, file);
    must(fclose(file) == 0 && written == sizeof end->negotiation, "the negotiation cannot be stored", 0);
}

int main(int count, char **arguments)
{
    static struct end ends[2];
    static const char *const words[] = {"none", "success", "failed", "stalled", "full"};
    unsigned end = LAVUTREMO_END_NONE;
    must(count == 6, "MEDIATOR REQUESTER ENTITY NAME STORE are expected", 0);
    read_tables(arguments[1], &ends[0]);
    read_tables(arguments[2], &ends[1]);
    begin(&ends[0], self_of(&ends[1]), (uint16_t)atoi(arguments[3]), (uint16_t)atoi(arguments[4]));
    begin(&ends[1], self_of(&ends[0]), 0, 0);
    for (int sender = 0; end == LAVUTREMO_END_NONE; sender = !sender)
        end = pass(&ends[sender], &ends[!sender]);
    store(arguments[5], &ends[0]);
    printf("end: %s\n", words[end]);
    return end != LAVUTREMO_END_SUCCESS;
}
