/* SPDX-License-Identifier: Apache-2.0 */
#define _POSIX_C_SOURCE 200809L
#include "negotiate.h"

#include <stdlib.h>
#include <string.h>
#include <time.h>

#include "layout.h"

void wait_for_grid(long long since, long long grid)
{
    if (grid <= 0)
        return;
    long long passed = now_ns() - since, at = since + (passed / grid + 1) * grid;
    struct timespec time = {at / 1000000000, at % 1000000000};
    while (clock_nanosleep(CLOCK_MONOTONIC, TIMER_ABSTIME, &time, NULL) != 0 && !link_stopped())
        ;
}

/* Keeps the message in the end and the negotiation after it. */
static int keep_step(struct course *course, const struct end *end, int sent)
{
    if (course->count == course->room) {
        size_t room = course->room == 0 ? 4 : 2 * course->room;
        struct step *steps = realloc(course->steps, room * sizeof *steps);
        if (steps == NULL) {
            course->over = OVER_MEMORY;
            return 0;
        }
        course->steps = steps;
        course->room = room;
    }
    struct step *step = &course->steps[course->count++];
    step->sent = sent;
    step->length = end->length;
    memcpy(step->message, end->message, end->length);
    memcpy(step->negotiation, end->negotiation, sizeof step->negotiation);
    return 1;
}

static int over_link(struct course *course, enum link_result result)
{
    course->over = OVER_LINK;
    course->link = result;
    return result == LINK_DONE;
}

static int over_refused(struct course *course, enum over over, unsigned number)
{
    course->over = over;
    course->refusal = number;
    return number == 0;
}

/* Our turn: all work is done before the message waits for its time. Returns 1 if it was sent. */
static int send_message(struct end *end, int socket, const struct bounds *bounds, struct course *course)
{
    if (!over_refused(course, OVER_REPLY_REFUSED, end_reply(end)) || !keep_step(course, end, 1))
        return 0;
    course->end = end_now(end);
    wait_for_grid(course->last, bounds->grid);
    if (!over_link(course, link_send(socket, end->message, end->length, bounds->until))) {
        course->count--;
        return 0;
    }
    course->last = now_ns();
    return 1;
}

/* The other end's turn. Returns 1 if a message was taken. */
static int receive_message(struct end *end, int socket, const struct bounds *bounds, struct course *course)
{
    if (!over_link(course, link_receive(socket, end->message, &end->length, sizeof end->message, bounds->until)))
        return 0;
    course->last = now_ns();
    if (!over_refused(course, OVER_TAKE_REFUSED, end_take(end)) || !keep_step(course, end, 0))
        return 0;
    course->end = end_now(end);
    return 1;
}

void negotiate(struct end *end, int socket, const struct bounds *bounds, struct course *course)
{
    unsigned ours = end->negotiation[SIDE_AT], done = 1, count;
    *course = (struct course){.last = now_ns()};
    for (count = 0; count < bounds->messages && done && course->end == LAVUTREMO_END_NONE; count++)
        done = (unsigned)(count % 2 == ours ? send_message(end, socket, bounds, course)
                                            : receive_message(end, socket, bounds, course));
    if (done)
        course->over = course->end != LAVUTREMO_END_NONE ? OVER_END : OVER_MESSAGES;
    else
        course->end = LAVUTREMO_END_NONE;
}

void course_free(struct course *course)
{
    free(course->steps);
    course->steps = NULL;
}

enum status course_status(const struct course *course)
{
    static const enum status ends[] = {STATUS_CONNECTION, STATUS_SUCCESS, STATUS_FAILED, STATUS_STALLED, STATUS_FULL};
    switch (course->over) {
    case OVER_END:
        return ends[course->end];
    case OVER_LINK:
        if (course->link == LINK_STOPPED)
            return STATUS_SIGNAL;
        return course->link == LINK_LONG ? STATUS_REFUSED : STATUS_CONNECTION;
    case OVER_TAKE_REFUSED:
    case OVER_REPLY_REFUSED:
        return STATUS_REFUSED;
    case OVER_MESSAGES:
        return STATUS_BOUND;
    default:
        return STATUS_DISK;
    }
}
