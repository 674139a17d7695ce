/* SPDX-License-Identifier: Apache-2.0 */
/*
 * For a host of Lavutremo: house tables as text, and what a person reads of a negotiation. C11 and C++17.
 *
 * The calls keep no state, and threads may call at the same time, each with its own stream. Any bytes may be printed: what
 * is no expression or command is printed as such. Those that read a text need 50,000 bytes of stack beside lavutremo_check.
 */
#ifndef LAVUTREMO_HOST_H
#define LAVUTREMO_HOST_H

#include <stddef.h>
#include <stdint.h>
#include <stdio.h>

#include "lavutremo.h"

#ifdef __cplusplus
extern "C" {
#endif

/* What is wrong in a text, and where: line and column count from 1. */
struct lavutremo_text_error {
    unsigned line, column;
    char what[200];
};

/*
 * Tables as text, a record a line, in any order:
 *
 *   self 2
 *   class 1 issuer-def               or issuer-all, subject-all; a name without such a line is subject-all
 *   issued 3.1 <- 4.3                0x12, an issuer-stored credential
 *   stored 4.3 <- 2                  0x13, a subject-stored credential
 *   sensitive 4.3 ack 1.2
 *   access 4.3 5.1
 *
 * Writes the records to tables, LAVUTREMO_MOST_TABLES_BYTES of room, and returns their length; lavutremo_check accepts
 * them. Returns 0 with the error if the text is wrong; what tables hold is then undefined.
 */
size_t lavutremo_text_to_tables(const char *text, size_t text_len, uint8_t *tables, struct lavutremo_text_error *error);

/* Prints tables as text. Returns 0, or why lavutremo_check refuses them, and then nothing is printed. */
unsigned lavutremo_tables_to_text(FILE *to, const uint8_t *tables, size_t tables_len);

/*
 * An expression as 2, 4.3, 3.2.5 or 2.2 & 3.3: 18 bytes. A credential as 3.1 <- 4.3: the 22 bytes after its first. Return
 * 1, or 0 with the error.
 */
int lavutremo_text_to_expression(const char *text, size_t text_len, uint8_t *expression,
                                 struct lavutremo_text_error *error);
int lavutremo_text_to_credential(const char *text, size_t text_len, uint8_t *operands,
                                 struct lavutremo_text_error *error);

void lavutremo_print_expression(FILE *to, const uint8_t *expression);
void lavutremo_print_credential(FILE *to, const uint8_t *operands);

/* The graph as it was printed last. Zeros before the first message. */
struct lavutremo_printed {
    unsigned nodes, edges;
    uint8_t states[LAVUTREMO_MOST_NODES];     /* verifier-processed, opponent-processed */
    uint8_t propagated[LAVUTREMO_MOST_NODES]; /* unknown, satisfied, failed */
};

/*
 * The last message of a negotiation with its direction, as in "message 1, 3 to 2, 56 bytes", its commands, and a line for
 * each node that is new or whose propagated state it changed. A node is asked after once at most. The negotiation is that
 * after the message, LAVUTREMO_NEGOTIATION_BYTES of it.
 */
void lavutremo_print_message(FILE *to, const uint8_t *tables, size_t tables_len, const uint8_t *negotiation,
                             const uint8_t *message, size_t message_len, const char *direction,
                             struct lavutremo_printed *printed);

/* A message's commands alone. The new nodes are numbered from node_count, the number of nodes before the message. */
void lavutremo_print_commands(FILE *to, const uint8_t *message, size_t message_len, unsigned node_count);

/*
 * The graph: a line for each node with its number, role, holder, state and verifier; then how many messages there were of
 * each side, as in "messages: mediator 2, requester 2", and the end.
 */
void lavutremo_print_graph(FILE *to, const uint8_t *tables, size_t tables_len, const uint8_t *negotiation);

/* Why a call was refused, and what an end is, in words. */
const char *lavutremo_refusal_words(unsigned number);
const char *lavutremo_end_words(unsigned end);

#ifdef __cplusplus
}
#endif

#endif
