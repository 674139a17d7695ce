/* SPDX-License-Identifier: Apache-2.0 */
/* Reading roles, expressions and credentials from a line of text into their bytes. */
#ifndef READ_H
#define READ_H

#include <stddef.h>
#include <stdint.h>

/* A place in a line. The first thing that is wrong stays in wrong and where; wrong is NULL before. */
struct cursor {
    const char *at, *end;
    const char *wrong, *where;
};

void cursor_on(struct cursor *cursor, const char *line, size_t length);

/* Sets what is wrong and where, unless something is already. Returns 0. */
int fail(struct cursor *cursor, const char *where, const char *what);

void skip_blanks(struct cursor *cursor);

/* Skips blanks; returns 1 if the line ends there or a comment begins. */
int at_end(struct cursor *cursor);

/* Takes a whole word after blanks, if it comes next. */
int take_word(struct cursor *cursor, const char *word);

/*
 * These read, after blanks, the 2 bytes of an entity or a name, the 4 bytes of a role, the 18 bytes of an expression of
 * kind 1 to 4, or the 22 bytes of a credential's operands. They return 1, or 0 with what is wrong.
 */
int read_number(struct cursor *cursor, uint8_t *number);
int read_role(struct cursor *cursor, uint8_t *role);
int read_expression(struct cursor *cursor, uint8_t *expression);
int read_credential(struct cursor *cursor, uint8_t *operands);

#endif
