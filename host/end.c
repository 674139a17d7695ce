/* SPDX-License-Identifier: Apache-2.0 */
#include "end.h"

#include "print.h"

unsigned end_begin(struct end *end, const struct house *house, uint16_t other, uint16_t entity, uint16_t name)
{
    end->house = house;
    end->length = 0;
    return lavutremo_number(lavutremo_begin(house->bytes, house->length, end->negotiation, sizeof end->negotiation,
                                            other, entity, name));
}

unsigned end_reply(struct end *end)
{
    uint64_t answer = lavutremo_reply(end->house->bytes, end->house->length, end->negotiation,
                                      sizeof end->negotiation, end->message, sizeof end->message, end->scratch,
                                      sizeof end->scratch);
    end->length = lavutremo_number(answer) == 0 ? lavutremo_length(answer) : 0;
    return lavutremo_number(answer);
}

unsigned end_take(struct end *end)
{
    return lavutremo_number(lavutremo_take(end->house->bytes, end->house->length, end->negotiation,
                                           sizeof end->negotiation, end->message, end->length, end->scratch,
                                           sizeof end->scratch));
}

unsigned end_now(const struct end *end)
{
    uint64_t answer = lavutremo_report(end->house->bytes, end->house->length, end->negotiation,
                                       sizeof end->negotiation, 0);
    return lavutremo_number(answer) == 0 ? lavutremo_end(answer) : LAVUTREMO_END_NONE;
}

/* Where the commands of a message begin, up to the first that cannot be read, the end, or where an end is missing. */
struct starts {
    size_t at[LAVUTREMO_MOST_MESSAGE_BYTES / 2 + 2]; /* two bytes are the shortest before the end */
    unsigned count;
};

static void find_starts(const struct end *end, struct starts *starts)
{
    size_t at = 0, size;
    starts->count = 0;
    for (;; at += size) {
        starts->at[starts->count++] = at;
        size = at < end->length ? command_size(end->message[at]) : 0;
        if (size == 0 || size > end->length - at || end->message[at] == LAVUTREMO_COMMAND_END)
            return;
    }
}

/* Whether the commands in so many bytes at the start of the message, less than a whole one, could be taken. */
static int could_take(const struct end *end, size_t length)
{
    struct end trial = *end;
    if (length >= sizeof trial.message)
        return 0;
    trial.message[length] = LAVUTREMO_COMMAND_END;
    trial.length = length + 1;
    return end_take(&trial) == 0;
}

/*
 * What cannot be read is refused where it stands. Otherwise the commands before the refused one are the most that can
 * be taken: at most 11 takes find out how many, since a message has at most 2,048 commands.
 */
void end_refused(const struct end *end, unsigned number, unsigned *command, size_t *at)
{
    struct starts starts;
    find_starts(end, &starts);
    unsigned taken = 0, refused = starts.count;
    if (number == LAVUTREMO_COMMAND)
        taken = starts.count - 1;
    while (refused - taken > 1) {
        unsigned middle = taken + (refused - taken) / 2;
        if (could_take(end, starts.at[middle]))
            taken = middle;
        else
            refused = middle;
    }
    *command = taken;
    *at = starts.at[taken];
}
