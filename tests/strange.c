/*
 * strange COUNT: texts of tables with changes at random, from a fixed seed, random bytes to be printed, and a hundredth as
 * many random negotiations and refused messages. Built with sanitizers. Exits with 1 if a text that is accepted does not
 * come back as it was, a node's state is not the one that was printed last, a message is not counted for its sender,
 * another command was refused than is told, or a negotiation is another where subject-all names are not listed.
 */
#define _POSIX_C_SOURCE 200809L
#include <stdio.h>
#include <stdlib.h>
#include <string.h>

#include "end.h"
#include "layout.h"
#include "print.h"
#include "text.h"

static const char honest[] = "self 2\nclass 1 issuer-def\nclass 2 issuer-all\nclass 3 subject-all\n"
                             "issued 2.1 <- 2.2.3\nissued 2.1 <- 2.2 & 3.3 # comment\nstored 4.3 <- 2\n"
                             "stored 4.3 <- 5.6\nsensitive 4.3 ack 1.2\naccess 4.3 2.1\n";

/* The end of what is read lies against the end of its memory, so that a byte too far is found. */
static char *copy(const char *from, size_t length)
{
    char *made = malloc(length == 0 ? 1 : length);
    if (made == NULL)
        exit(2);
    memcpy(made, from, length);
    return made;
}

/* Changes a few bytes, cuts, or doubles a part. Returns the new length. */
static size_t change(char *text, size_t length)
{
    static const char likely[] = "0123456789.&<-# \n\r\tselfclassissuedstoredack\xef\xbb\xbf";
    for (int i = 1 + rand() % 6; i > 0 && length > 2; i--) {
        size_t at = (size_t)rand() % length;
        int kind = rand() % 8;
        if (kind < 3)
            text[at] = likely[(size_t)rand() % (sizeof likely - 1)];
        else if (kind == 3)
            text[at] = (char)rand();
        else if (kind == 4)
            length = at + 1;
        else {
            size_t part = 1 + (size_t)rand() % 40;
            part = part < length - at ? part : length - at;
            memmove(text + at + part, text + at, length - at);
            length += part;
        }
    }
    return length;
}

/* The text of accepted tables gives the same records. */
static int comes_back(const struct house *house)
{
    char *text = NULL;
    size_t length;
    struct house again;
    struct text_error error;
    FILE *stream = open_memstream(&text, &length);
    if (stream == NULL)
        return 0;
    house_to_text(stream, house);
    fclose(stream);
    int same = text_to_house(text, length, &again, &error) && again.length == house->length &&
               memcmp(again.bytes, house->bytes, house->length) == 0;
    free(text);
    return same;
}

static int try_text(int *accepted)
{
    static char text[sizeof honest + 6 * 40];
    struct house house;
    struct text_error error;
    memcpy(text, honest, sizeof honest - 1);
    size_t length = change(text, sizeof honest - 1);
    char *lent = copy(text, length);
    int sound = text_to_house(lent, length, &house, &error);
    free(lent);
    *accepted += sound;
    return !sound || comes_back(&house);
}

static void print_random(FILE *to, const struct house *house)
{
    static uint8_t negotiation[LAVUTREMO_NEGOTIATION_BYTES], message[300];
    struct lavutremo_printed printed = {0};
    for (size_t i = 0; i < sizeof negotiation; i++)
        negotiation[i] = (uint8_t)(rand() % 3 == 0 ? rand() : rand() % 7);
    for (size_t i = 0; i < sizeof message; i++)
        message[i] = (uint8_t)(rand() % 2 == 0 ? rand() : rand() % 7);
    size_t length = (size_t)rand() % sizeof message;
    char *lent = copy((const char *)message, length);
    print_message(to, house, negotiation, (const uint8_t *)lent, length, "nowhere", &printed);
    print_graph(to, house, negotiation);
    free(lent);
}

/* A line that some random tables have; it may be wrong. */
static void put_line(char *to, size_t size, unsigned self)
{
    unsigned a = 2 + (unsigned)rand() % 4, b = 2 + (unsigned)rand() % 4, n = 1 + (unsigned)rand() % 4;
    unsigned m = 1 + (unsigned)rand() % 4, kind = (unsigned)rand() % 8;
    static const char *const forms[] = {"issued %u.1 <- %u.%u\n",          "issued %u.1 <- %u\n",
                                        "issued %u.%u <- %u.%u & %u.%u\n", "stored %u.%u <- %u\n",
                                        "stored %u.%u <- %u.%u.%u\n",      "sensitive %u.%u ack %u.%u\n",
                                        "issued %u.1 <- %u.%u.%u\n",       "stored %u.%u <- %u.%u\n"};
    const unsigned numbers[][6] = {{self, a, n},    {self, a},         {self, n, a, m, a + 1, n}, {a, n, 2 + m % 2},
                                   {a, n, a, m, n}, {a, n, b, m}, {self, self, n, m},        {a, n, b, m}};
    const unsigned *number = numbers[kind];
    snprintf(to, size, forms[kind], number[0], number[1], number[2], number[3], number[4], number[5]);
}

/* Random tables: lines that do not fit those before are left out. Names 3 and 4 are subject-all, listed or not. */
static void draw_house(unsigned self, struct house *house)
{
    char text[4096];
    struct text_error error;
    int length = snprintf(text, sizeof text, "self %u\nclass 1 issuer-def\nclass 2 %s\n%s%s", self,
                          rand() % 2 ? "issuer-all" : "subject-all", rand() % 2 ? "class 3 subject-all\n" : "",
                          rand() % 2 ? "class 4 subject-all\n" : "");
    for (int i = 0; i < 20; i++) {
        put_line(text + length, sizeof text - (size_t)length, self);
        struct house trial;
        if (text_to_house(text, strlen(text), &trial, &error))
            length = (int)strlen(text);
        text[length] = '\0';
    }
    if (!text_to_house(text, strlen(text), house, &error))
        exit(2);
}

/* What was printed of the nodes is what they are, also of those that no line was printed for. */
static int printed_right(const struct end *end, const struct lavutremo_printed *printed)
{
    for (unsigned i = 0; i < printed->nodes; i++) {
        uint64_t report = lavutremo_report(end->house->bytes, end->house->length, end->negotiation,
                                           sizeof end->negotiation, (uint8_t)i);
        if (lavutremo_number(report) != 0 || lavutremo_propagated(report) != printed->propagated[i])
            return 0;
    }
    return printed->nodes == end->negotiation[NODE_COUNT_AT];
}

/* The counts that a report gives at either end after this message, from 0. */
static int counted_right(const struct end *end, unsigned message)
{
    uint64_t report = lavutremo_report(end->house->bytes, end->house->length, end->negotiation, sizeof end->negotiation, 0);
    return lavutremo_number(report) == 0 && lavutremo_mediator_messages(report) == message / 2 + 1 &&
           lavutremo_requester_messages(report) == (message + 1) / 2 && lavutremo_messages(report) == message + 1;
}

/* Tries the commands of a message one after another, and compares with what is told of it. */
static int refused_right(const struct end *end, unsigned number)
{
    unsigned command, due = 0;
    size_t at, here = 0;
    end_refused(end, number, &command, &at);
    for (;; due++) {
        size_t size = here < end->length ? command_size(end->message[here]) : 0;
        if (size == 0 || size > end->length - here || end->message[here] == LAVUTREMO_COMMAND_END)
            break;
        struct end trial = *end;
        if (here + size >= sizeof trial.message)
            break;
        trial.message[here + size] = LAVUTREMO_COMMAND_END;
        trial.length = here + size + 1;
        if (end_take(&trial) != 0)
            break;
        here += size;
    }
    return command == due && at == here;
}

/* A message with random changes is taken or refused, and then the command is the right one. */
static int try_refused(const struct end *before, const uint8_t *message, size_t length, int *refused)
{
    struct end trial = *before;
    memcpy(trial.message, message, length);
    trial.length = length;
    for (int i = 1 + rand() % 3; i > 0; i--)
        trial.message[(size_t)rand() % length] = (uint8_t)(rand() % 2 ? rand() % 7 : rand());
    struct end after = trial;
    unsigned number = end_take(&after);
    *refused += number != 0;
    return number == 0 || refused_right(&trial, number);
}

/* The same tables without the records of subject-all names. */
static void leave_unlisted(const struct house *from, struct house *to)
{
    to->length = 0;
    for (size_t at = 0, size; at < from->length; at += size) {
        const uint8_t *record = from->bytes + at;
        size = record_size(record[0]);
        if (record[0] == LAVUTREMO_RECORD_NAME && record[3] == LAVUTREMO_CLASS_SUBJECT_ALL)
            continue;
        memcpy(to->bytes + to->length, record, size);
        to->length += size;
    }
}

/* One message from one end to the other. Returns the number of the call that refuses, or 0. */
static unsigned pass(struct end *from, struct end *other)
{
    unsigned number = end_reply(from);
    if (number != 0)
        return number;
    memcpy(other->message, from->message, from->length);
    other->length = from->length;
    return end_take(other);
}

static int same_end(const struct end *one, const struct end *other)
{
    return one->length == other->length && memcmp(one->message, other->message, one->length) == 0 &&
           memcmp(one->negotiation, other->negotiation, sizeof one->negotiation) == 0;
}

/* Whether tables that do not list their subject-all names give the same messages, refusals and negotiations. */
static int unlisted_alike(const struct house houses[2])
{
    static struct house shorter[2];
    static struct end listed[2], unlisted[2];
    for (int i = 0; i < 2; i++) {
        leave_unlisted(&houses[i], &shorter[i]);
        if (end_begin(&listed[i], &houses[i], i == 0 ? 2 : 3, i == 0 ? 3 : 0, i == 0) != 0 ||
            end_begin(&unlisted[i], &shorter[i], i == 0 ? 2 : 3, i == 0 ? 3 : 0, i == 0) != 0)
            return 0;
    }
    for (int i = 0; i < 64; i++) {
        unsigned number = pass(&listed[i % 2], &listed[1 - i % 2]);
        if (pass(&unlisted[i % 2], &unlisted[1 - i % 2]) != number || !same_end(&listed[0], &unlisted[0]) ||
            !same_end(&listed[1], &unlisted[1]))
            return 0;
        if (number != 0)
            break;
    }
    return 1;
}

/* A random negotiation: each message is printed at the end that takes it, after one with changes was tried there. */
static int try_negotiation(FILE *to, int *refused, int *ends)
{
    static struct house houses[2];
    static struct end sides[2];
    struct lavutremo_printed printed[2] = {{0}, {0}};
    draw_house(3, &houses[0]);
    draw_house(2, &houses[1]);
    if (!unlisted_alike(houses))
        return 0;
    if (end_begin(&sides[0], &houses[0], 2, 3, 1) != 0 || end_begin(&sides[1], &houses[1], 3, 0, 0) != 0)
        return 0;
    for (int i = 0; i < 64; i++) {
        struct end *from = &sides[i % 2], *other = &sides[1 - i % 2];
        if (end_now(from) != LAVUTREMO_END_NONE || end_reply(from) != 0)
            break;
        print_message(to, from->house, from->negotiation, from->message, from->length, "out", &printed[i % 2]);
        if (!try_refused(other, from->message, from->length, refused))
            return 0;
        memcpy(other->message, from->message, from->length);
        other->length = from->length;
        if (end_take(other) != 0)
            break;
        print_message(to, other->house, other->negotiation, other->message, other->length, "in", &printed[1 - i % 2]);
        if (!printed_right(from, &printed[i % 2]) || !printed_right(other, &printed[1 - i % 2]))
            return 0;
        if (!counted_right(from, (unsigned)i) || !counted_right(other, (unsigned)i))
            return 0;
    }
    ends[end_now(&sides[0])]++;
    return 1;
}

static int negotiations(FILE *to, int count)
{
    int refused = 0, ends[5] = {0};
    for (int i = 0; i < count; i++)
        if (!try_negotiation(to, &refused, ends)) {
            printf("negotiation %d is printed or counted wrong, or another where names are not listed\n", i);
            return 0;
        }
    printf("%d negotiations, %d messages refused; ends %d %d %d %d %d\n", count, refused, ends[0], ends[1], ends[2],
           ends[3], ends[4]);
    return refused > 0 && ends[LAVUTREMO_END_SUCCESS] > 0 && ends[LAVUTREMO_END_FAILED] > 0;
}

int main(int count, char **arguments)
{
    int accepted = 0, tries = count > 1 ? atoi(arguments[1]) : 20000;
    struct house house;
    struct text_error error;
    FILE *nowhere = fopen("/dev/null", "w");
    srand(17);
    if (nowhere == NULL || !text_to_house(honest, sizeof honest - 1, &house, &error))
        return 2;
    for (int i = 0; i < tries; i++) {
        if (!try_text(&accepted)) {
            printf("text %d does not come back\n", i);
            return 1;
        }
        if (i % 100 == 0)
            print_random(nowhere, &house);
    }
    printf("%d texts, %d accepted\n", tries, accepted);
    int right = negotiations(nowhere, tries / 100);
    fclose(nowhere);
    return !right || accepted == 0 || accepted == tries;
}
