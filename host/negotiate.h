/* SPDX-License-Identifier: Apache-2.0 */
/* A negotiation over a connection, from one end. */
#ifndef NEGOTIATE_H
#define NEGOTIATE_H

#include "end.h"
#include "link.h"
#include "status.h"

struct bounds {
    long long until;   /* of now_ms: when the negotiation must be over */
    long long grid;    /* nanoseconds: a message goes out a whole number of these after the last one came; 0 for at once */
    unsigned messages; /* how many messages there may be, sent and received together */
};

/* A message, and the negotiation after it. */
struct step {
    int sent;
    size_t length;
    uint8_t message[LAVUTREMO_MOST_MESSAGE_BYTES];
    uint8_t negotiation[LAVUTREMO_NEGOTIATION_BYTES];
};

/* Why a negotiation over a connection is over. */
enum over {
    OVER_END,           /* it ended: end_now */
    OVER_LINK,          /* by the connection */
    OVER_TAKE_REFUSED,  /* the message in the end was refused */
    OVER_REPLY_REFUSED, /* our reply was */
    OVER_MESSAGES,      /* there may be no more messages */
    OVER_MEMORY
};

/* How it went. What is printed of it is printed afterwards, so that printing takes no time between messages. */
struct course {
    struct step *steps;
    size_t count, room;
    enum over over;
    unsigned end;          /* LAVUTREMO_END_SUCCESS and so on; none unless OVER_END */
    unsigned refusal;      /* its number */
    enum link_result link; /* LINK_DONE unless OVER_LINK */
    long long last;        /* of now_ns: when the last message came or went, or the connection began */
};

/*
 * Negotiates over the socket, from the beginning, until an end is reached, a message is refused, the connection fails or
 * a bound is met. The course is to be freed by course_free.
 */
void negotiate(struct end *end, int socket, const struct bounds *bounds, struct course *course);

void course_free(struct course *course);

/* The exit status that says how it went. */
enum status course_status(const struct course *course);

/* Sleeps until a whole number of grid steps after a time of now_ns. An overrun goes to the next step. */
void wait_for_grid(long long since, long long grid);

#endif
