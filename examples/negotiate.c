/* SPDX-License-Identifier: Apache-2.0 */
#include "lavutremo.h"

int send_message(const uint8_t *message, size_t length);
size_t receive_message(uint8_t *message, size_t most);

/* Returns 1 if the negotiation ended in success. The requester gives zeros as entity and name. */
int negotiate(const uint8_t *tables, size_t tables_len, uint16_t other, uint16_t entity, uint16_t name)
{
    static uint8_t negotiation[LAVUTREMO_NEGOTIATION_BYTES], message[LAVUTREMO_MOST_MESSAGE_BYTES];
    static uint8_t scratch[LAVUTREMO_SCRATCH_BYTES];
    if (lavutremo_begin(tables, tables_len, negotiation, sizeof negotiation, other, entity, name) != 0)
        return 0;
    for (int ours = entity != 0;; ours = !ours) {
        if (ours) {
            uint64_t answer = lavutremo_reply(tables, tables_len, negotiation, sizeof negotiation, message,
                                              sizeof message, scratch, sizeof scratch);
            if (lavutremo_number(answer) != 0 || !send_message(message, lavutremo_length(answer)))
                return 0;
        } else {
            size_t length = receive_message(message, sizeof message);
            if (lavutremo_take(tables, tables_len, negotiation, sizeof negotiation, message, length, scratch,
                               sizeof scratch) != 0)
                return 0;
        }
        uint64_t report = lavutremo_report(tables, tables_len, negotiation, sizeof negotiation, 0);
        if (lavutremo_end(report) != LAVUTREMO_END_NONE)
            return lavutremo_end(report) == LAVUTREMO_END_SUCCESS;
    }
}
