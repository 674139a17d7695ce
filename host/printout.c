/* SPDX-License-Identifier: Apache-2.0 */
#define _POSIX_C_SOURCE 200809L
#include "printout.h"

#include <errno.h>
#include <fcntl.h>
#include <stdlib.h>
#include <string.h>
#include <unistd.h>

#include "digest.h"
#include "layout.h"
#include "output.h"
#include "print.h"

int printout_open(struct printout *printout)
{
    *printout = (struct printout){0};
    printout->to = open_memstream(&printout->text, &printout->length);
    return printout->to != NULL;
}

int printout_done(struct printout *printout)
{
    int failed = ferror(printout->to);
    failed |= fclose(printout->to) != 0;
    printout->to = NULL;
    return !failed;
}

void printout_add(struct printout *printout, const char *words)
{
    size_t length = strlen(words);
    char *text = realloc(printout->text, printout->length + length + 1);
    if (text == NULL)
        return;
    memcpy(text + printout->length, words, length + 1);
    printout->text = text;
    printout->length += length;
}

void printout_free(struct printout *printout)
{
    if (printout->to != NULL)
        fclose(printout->to);
    free(printout->text);
    *printout = (struct printout){0};
}

static void print_head(FILE *to, const struct end *end, time_t date)
{
    char text[40];
    struct tm parts;
    struct digest digest;
    const uint8_t *negotiation = end->negotiation;
    unsigned self = number_at(negotiation + SELF_AT), other = number_at(negotiation + OTHER_AT);
    int mediates = negotiation[SIDE_AT] == 0;
    strftime(text, sizeof text, "%Y-%m-%dT%H:%M:%SZ", gmtime_r(&date, &parts));
    fprintf(to, "date %s\n", text);
    fprintf(to, "mediator %u, requester %u, printed by %u\n", mediates ? self : other, mediates ? other : self, self);
    digest_begin(&digest);
    digest_add(&digest, end->house->bytes, end->house->length);
    fprintf(to, "tables of %u, SHA-256 %s\n", self, digest_done(&digest));
}

/* The mediator knows it from the beginning, the requester when the first target stands. */
static void print_wanted(FILE *to, const uint8_t *negotiation)
{
    int mediates = negotiation[SIDE_AT] == 0;
    if (!mediates && negotiation[NODE_COUNT_AT] == 0) {
        fprintf(to, "wanted role: none was named\n");
        return;
    }
    fprintf(to, "wanted role ");
    print_role(to, negotiation + (mediates ? WANTED_AT : NODES_AT + 2));
    fprintf(to, " of %u\n", number_at(negotiation + (mediates ? OTHER_AT : SELF_AT)));
}

static void print_steps(FILE *to, const struct end *end, const struct course *course, struct lavutremo_printed *printed)
{
    char direction[40];
    for (size_t i = 0; i < course->count; i++) {
        const struct step *step = &course->steps[i];
        snprintf(direction, sizeof direction, "%s %u", step->sent ? "sent to" : "received from",
                 number_at(end->negotiation + OTHER_AT));
        print_message(to, end->house, step->negotiation, step->message, step->length, direction, printed);
    }
}

/* The commands before the refused one, and that one. The rest was not looked at. */
static void print_refused(FILE *to, const struct end *end, const struct course *course, const struct lavutremo_printed *printed)
{
    unsigned command;
    size_t at;
    end_refused(end, course->refusal, &command, &at);
    size_t size = at < end->length ? command_size(end->message[at]) : 0;
    int whole = size != 0 && size <= end->length - at;
    fprintf(to, "message refused, received from %u, %zu bytes\n", number_at(end->negotiation + OTHER_AT), end->length);
    print_commands(to, end->message, whole ? at + size : at, printed->nodes);
    if (!whole)
        fprintf(to, "    %zu bytes that are no command\n", end->length - at);
    fprintf(to, "    refused at command %u, byte %zu, both from 0: %u, %s\n", command, at, course->refusal,
            refusal_words(course->refusal));
}

static void print_over(FILE *to, const struct course *course)
{
    switch (course->over) {
    case OVER_END:
        fprintf(to, "over: %s\n", end_words(course->end));
        break;
    case OVER_LINK:
        fprintf(to, "over: %s\n", link_words(course->link));
        break;
    case OVER_TAKE_REFUSED:
    case OVER_REPLY_REFUSED:
        fprintf(to, "over: %s was refused with %u\n", course->over == OVER_TAKE_REFUSED ? "a message" : "our reply",
                course->refusal);
        break;
    case OVER_MESSAGES:
        fprintf(to, "over: %zu messages are the most\n", course->count);
        break;
    case OVER_MEMORY:
        fprintf(to, "over: no memory\n");
    }
}

void printout_course(struct printout *printout, const struct end *end, const struct course *course, time_t date)
{
    struct lavutremo_printed printed = {0};
    FILE *to = printout->to;
    /* Of a refused reply or a message that was not sent the end has more than the other end knows. */
    const uint8_t *last = course->count > 0 ? course->steps[course->count - 1].negotiation : end->negotiation;
    print_head(to, end, date);
    print_wanted(to, last);
    print_steps(to, end, course, &printed);
    if (course->over == OVER_TAKE_REFUSED)
        print_refused(to, end, course, &printed);
    if (course->count > 0) {
        fprintf(to, "graph\n");
        print_graph(to, end->house, last);
    } else {
        print_counts(to, 0, 0);
    }
    print_over(to, course);
}

int record_keep(struct record *record, const char *folder, time_t date, unsigned long number, const char *text,
                size_t length)
{
    char name[40];
    struct tm parts;
    size_t size = strlen(folder) + sizeof name + 40;
    record->file = -1;
    record->path = malloc(size);
    if (record->path == NULL)
        return 0;
    strftime(name, sizeof name, "%Y%m%dT%H%M%SZ", gmtime_r(&date, &parts));
    do {
        snprintf(record->path, size, "%s/%s-%06lu.negotiation", folder, name, number++);
        record->file = open(record->path, O_WRONLY | O_CREAT | O_EXCL | O_APPEND, 0666);
    } while (record->file < 0 && errno == EEXIST);
    if (record->file >= 0 && write_all(record->file, text, length) && fsync(record->file) == 0 &&
        sync_folder_of(record->path))
        return 1;
    int error = errno;
    if (record->file >= 0) {
        close(record->file);
        unlink(record->path); /* made by us, and no whole record */
    }
    free(record->path);
    *record = (struct record){.file = -1};
    errno = error;
    return 0;
}

int record_close(struct record *record, const char *text, size_t length)
{
    int closed = 1;
    if (record->file >= 0) {
        closed = write_all(record->file, text, length) && fsync(record->file) == 0;
        closed &= close(record->file) == 0;
    }
    free(record->path);
    *record = (struct record){.file = -1};
    return closed;
}
