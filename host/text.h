/* SPDX-License-Identifier: Apache-2.0 */
/*
 * The text form of house tables, a record a line:
 *
 *   self 2
 *   class 1 issuer-def               or issuer-all, subject-all; a name without such a line is subject-all
 *   issued 3.1 <- 4.3                0x12, an issuer-stored credential
 *   stored 4.3 <- 2                  0x13, a subject-stored credential
 *   sensitive 4.3 ack 1.2
 *   access 4.3 5.1
 *
 * A role is entity.name, a linked role entity.name.name, an intersection two to four roles with & between, ascending by
 * entity, then name. A comment runs from # to the end of its line. Lines may stand in any order: the records are
 * written in the order of their commands, ascending by bytes. A repeated record is an error. A byte order mark of UTF-8
 * before the first line is skipped.
 */
#ifndef TEXT_H
#define TEXT_H

#include <stddef.h>
#include <stdint.h>
#include <stdio.h>

#include "house.h"

/* What is wrong in a text, and where: line and column count from 1. */
struct text_error {
    unsigned line, column;
    char what[200];
};

/*
 * Turns a text into records and asks lavutremo_check about them. Returns 1, or 0 with the error; the house is then
 * undefined.
 */
int text_to_house(const char *text, size_t length, struct house *house, struct text_error *error);

/* Prints sound tables as text, a line for each record, in their order. */
void house_to_text(FILE *to, const struct house *house);

/* Why lavutremo_check refused a record that begins with this byte, in words. */
const char *record_refusal_words(unsigned number, uint8_t command);

#endif
