/* SPDX-License-Identifier: Apache-2.0 */
/*
 * What a person reads of a negotiation: expressions, messages and graphs from their bytes, numbers in words.
 *
 * Any bytes may be printed. What is no expression or command is printed as such.
 */
#ifndef PRINT_H
#define PRINT_H

#include <stddef.h>
#include <stdint.h>
#include <stdio.h>

#include "house.h"
#include "lavutremo_host.h"

/* The 4 bytes of a role: 4.3. Returns how many characters it printed. */
int print_role(FILE *to, const uint8_t *role);

/* The 18 bytes of an expression: 4, 4.3, 1.2.3, 2.2 & 3.3, or goal 3. */
void print_expression(FILE *to, const uint8_t *expression);

/* The 22 bytes after the first of a credential: 3.1 <- 4.3. */
void print_credential(FILE *to, const uint8_t *operands);

/* The size of the command of a message that begins with this byte, or 0 if none does. */
size_t command_size(uint8_t command);

/*
 * A message's commands, a line each. The new nodes are numbered from node_count, the number of nodes before the message.
 */
void print_commands(FILE *to, const uint8_t *message, size_t length, unsigned node_count);

/*
 * The last message of a negotiation with its direction, as in "message 1, 3 to 2, 56 bytes", its commands, and a line for
 * each node that is new or whose propagated state it changed. A node is asked after once at most.
 */
void print_message(FILE *to, const struct house *house, const uint8_t *negotiation, const uint8_t *message,
                   size_t length, const char *direction, struct lavutremo_printed *printed);

/* How many messages there were of each side, as in "messages: mediator 2, requester 2". */
void print_counts(FILE *to, unsigned mediator, unsigned requester);

/* The graph: a line for each node with its number, role, holder, state and verifier; then both counts, and the end. */
void print_graph(FILE *to, const struct house *house, const uint8_t *negotiation);

/* Why a call was refused, and what an end is, in words. */
const char *refusal_words(unsigned number);
const char *end_words(unsigned end);

/* What kind an edge is, and how a node stands, in words. */
const char *edge_words(unsigned kind);
const char *propagated_words(unsigned propagated, int is_goal);

#endif
