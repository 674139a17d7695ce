/* SPDX-License-Identifier: Apache-2.0 */
/* One end of a negotiation: its tables, its bytes, and the message that it gave or took last. */
#ifndef END_H
#define END_H

#include "house.h"

struct end {
    const struct house *house;
    uint8_t negotiation[LAVUTREMO_NEGOTIATION_BYTES];
    uint8_t message[LAVUTREMO_MOST_MESSAGE_BYTES];
    size_t length;
    uint8_t scratch[LAVUTREMO_SCRATCH_BYTES];
};

/* These return 0, or the number of the refusal. The house stays the caller's. */

/* Begins as the mediator of the role entity.name, or, both being zero, as the requester. */
unsigned end_begin(struct end *end, const struct house *house, uint16_t other, uint16_t entity, uint16_t name);

/* Leaves our next message in the end. */
unsigned end_reply(struct end *end);

/* Takes the message in the end, which the other end sent. */
unsigned end_take(struct end *end);

/* How the negotiation has ended, after a message. */
unsigned end_now(const struct end *end);

/*
 * After end_take refused the message: the command that it was refused for, numbered from 0, and where it begins. The
 * commands before it could be taken.
 */
void end_refused(const struct end *end, unsigned number, unsigned *command, size_t *at);

#endif
