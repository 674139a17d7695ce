/* SPDX-License-Identifier: Apache-2.0 */
/* The printout of a negotiation: made in memory, kept in a folder. */
#ifndef PRINTOUT_H
#define PRINTOUT_H

#include <stdio.h>
#include <time.h>

#include "negotiate.h"

struct printout {
    FILE *to;
    char *text; /* once it is done */
    size_t length;
};

/* Returns 1, or 0 if there is no memory. */
int printout_open(struct printout *printout);

/*
 * The date in UTC, both ends, the wanted role, the SHA-256 of the tables; each message with its commands and the nodes
 * that it changed; the graph at the end; how many messages there were of each side; why it is over.
 */
void printout_course(struct printout *printout, const struct end *end, const struct course *course, time_t date);

/* Returns 1 if all of it is in text, or 0 if there was no memory. */
int printout_done(struct printout *printout);

/* Adds to the text of one that is done, if there is memory. */
void printout_add(struct printout *printout, const char *words);

void printout_free(struct printout *printout);

/*
 * A printout that is kept in a folder, as a file of its own whose name has the date and a number: the given one, or the
 * next that is free.
 */
struct record {
    char *path;
    int file; /* -1 if there is none */
};

/* Puts it on disk. Returns 1, or 0 with errno. */
int record_keep(struct record *record, const char *folder, time_t date, unsigned long number, const char *text,
                size_t length);

/* Adds to it and closes it. Returns 1, or 0 with errno. */
int record_close(struct record *record, const char *text, size_t length);

#endif
