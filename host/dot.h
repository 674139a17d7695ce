/* SPDX-License-Identifier: Apache-2.0 */
/* A negotiation as a picture, in the language DOT of graphviz. */
#ifndef DOT_H
#define DOT_H

#include <stdint.h>
#include <stdio.h>

#include "house.h"

/*
 * Prints the graph of a sound negotiation: the nodes in a lane for each verifier, coloured by state; the edges from child
 * to parent with their kinds, control edges dashed; and on an implication the credentials shown that justify it.
 */
void print_dot(FILE *to, const struct house *house, const uint8_t *negotiation);

#endif
