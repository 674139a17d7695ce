/* SPDX-License-Identifier: Apache-2.0 */
/* What the programs of the host are given on the command line. */
#ifndef ARGUMENTS_H
#define ARGUMENTS_H

#include <stddef.h>
#include <stdint.h>

/* A decimal number from least to most. Returns 1, or 0 if the text is none. */
int argument_number(const char *text, unsigned long long least, unsigned long long most, unsigned long long *number);

/* An entity, and a role as entity.name. Return 1, or 0 if the text is none. */
int argument_entity(const char *text, uint16_t *entity);
int argument_role(const char *text, uint16_t *entity, uint16_t *name);

/* An option: a letter with a number, with a text, or alone. Two of the three pointers are NULL. */
struct option_form {
    char letter;
    unsigned long long *number, least, most;
    const char **text;
    int *flag;
};

struct program {
    const char *name, *help;
    const struct option_form *options;
    size_t option_count;
};

/*
 * Reads the options and returns where the other arguments begin. -h and --version are answered, and a wrong option is
 * named: the program ends then. The first thing that a program does: it opens standard files that are closed.
 */
int read_options(const struct program *program, int count, char **arguments);

/* Says that an argument is wrong, as in "serve: ROLE 3.x: entity.name is expected", and ends the program. */
_Noreturn void wrong_argument(const struct program *program, const char *what, const char *text, const char *expected);

/* Prints the help and ends the program. */
_Noreturn void wrong_count(const struct program *program);

#endif
