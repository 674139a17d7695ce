/* SPDX-License-Identifier: Apache-2.0 */
/*
 * Runs the marked cases and prints them: the questions (a) to (h) with their credentials and answers, then the
 * negotiations (i) and (j) with the tables of both ends, each message and the nodes that it changed, and the graph and
 * the messages of each side at the end. Exits with 1 if one of them comes out otherwise than marked.
 */
#include <stdio.h>
#include <stdlib.h>
#include <string.h>

#include "end.h"
#include "layout.h"
#include "print.h"
#include "read.h"
#include "text.h"

struct question {
    char letter;
    const char *credentials[4]; /* up to the first that is NULL */
    const char *f, *e;
    int yes;
};

static const struct question questions[] = {
    {'a', {NULL}, "1.1", "1.1", 1},
    {'b', {NULL}, "1.1", "2", 0},
    {'c', {"1.1 <- 2.2", "2.2 <- 3"}, "1.1", "3", 1},
    {'d', {"1.1 <- 2.2", "2.2 <- 3"}, "2.2", "1.1", 0},
    {'e', {"1.1 <- 1.2.3", "1.2 <- 2", "2.3 <- 4"}, "1.1", "4", 1},
    {'f', {"1.1 <- 1.2.3", "2.3 <- 4"}, "1.1", "4", 0},
    {'g', {"1.1 <- 2.2 & 3.3", "2.2 <- 4"}, "1.1", "4", 0},
    {'h', {"1.1 <- 2.2 & 3.3", "2.2 <- 4", "3.3 <- 4"}, "1.1", "4", 1},
};

#define CLASSES "class 1 issuer-def\nclass 2 subject-all\nclass 3 subject-all\n"
#define STUDIO "self 3\n" CLASSES "issued 3.1 <- 4.3\nstored 1.2 <- 3\n"
#define HOUSE "self 2\n" CLASSES
#define SENSITIVE "sensitive 4.3 ack 1.2\n"

/* The mediator wants 3.1 of the requester. Both runs have four messages; an end is expected after the last alone. */
static const struct run {
    char letter;
    const char *mediator, *requester;
    size_t lengths[4];
    unsigned nodes, end;
} runs[] = {
    {'i', STUDIO, HOUSE "stored 4.3 <- 2\n" SENSITIVE, {56, 25, 50, 48}, 5, LAVUTREMO_END_SUCCESS},
    {'j', STUDIO, HOUSE SENSITIVE, {56, 25, 50, 3}, 4, LAVUTREMO_END_FAILED},
};

/* The texts above are right, or the program is wrong. */
static void must(int read, const char *text)
{
    if (!read) {
        printf("cannot be read: %s\n", text);
        exit(2);
    }
}

static void expression_of(const char *text, uint8_t *expression)
{
    struct cursor cursor;
    cursor_on(&cursor, text, strlen(text));
    must(read_expression(&cursor, expression) && at_end(&cursor), text);
}

/* The credentials and an end, as lavutremo_question takes them; printed on the way. Returns their length. */
static size_t put_credentials(const char *const *texts, uint8_t *to)
{
    size_t length = 0;
    for (size_t i = 0; texts[i] != NULL; i++) {
        struct cursor cursor;
        cursor_on(&cursor, texts[i], strlen(texts[i]));
        to[length] = LAVUTREMO_COMMAND_CREDENTIAL;
        must(read_credential(&cursor, to + length + 1) && at_end(&cursor), texts[i]);
        fputs(i > 0 ? ", " : "", stdout);
        print_credential(stdout, to + length + 1);
        length += LAVUTREMO_CREDENTIAL_BYTES;
    }
    to[length++] = LAVUTREMO_COMMAND_END;
    return length;
}

/* Returns 1 if the answer is the marked one. */
static int ask(const struct question *question)
{
    uint8_t credentials[LAVUTREMO_MOST_CREDENTIALS_BYTES];
    uint8_t f[LAVUTREMO_EXPRESSION_BYTES], e[LAVUTREMO_EXPRESSION_BYTES];
    printf("(%c) %s", question->letter, question->credentials[0] == NULL ? "no credentials" : "");
    size_t length = put_credentials(question->credentials, credentials);
    expression_of(question->f, f);
    expression_of(question->e, e);
    printf("\n    ");
    print_expression(stdout, f);
    printf(" from ");
    print_expression(stdout, e);
    uint64_t answer = lavutremo_question(credentials, length, f, sizeof f, e, sizeof e);
    if (lavutremo_number(answer) != 0) {
        printf(": refused %u\n", lavutremo_number(answer));
        return 0;
    }
    int yes = lavutremo_value(answer) == 1;
    printf(": %s%s\n", yes ? "yes" : "no", yes == question->yes ? "" : ", marked otherwise");
    return yes == question->yes;
}

static void read_house(const char *who, const char *text, struct house *house)
{
    struct text_error error;
    must(text_to_house(text, strlen(text), house, &error), text);
    printf("%s\n", who);
    house_to_text(stdout, house);
}

/* Whether both ends hold the same graph and credentials: all that stands behind the header. */
static int alike(const struct end *one, const struct end *other)
{
    return memcmp(one->negotiation + NODES_AT, other->negotiation + NODES_AT,
                  sizeof one->negotiation - NODES_AT) == 0;
}

/* One message, given by the sender and taken by the receiver. Returns 1 if it has this length and both ends agree. */
static int pass(struct end *sender, struct end *receiver, const char *direction, size_t length,
                struct lavutremo_printed *printed)
{
    unsigned number = end_reply(sender);
    if (number != 0) {
        printf("%s: reply refused %u: %s\n", direction, number, refusal_words(number));
        return 0;
    }
    memcpy(receiver->message, sender->message, sender->length);
    receiver->length = sender->length;
    number = end_take(receiver);
    if (number != 0) {
        printf("%s: take refused %u: %s\n", direction, number, refusal_words(number));
        return 0;
    }
    print_message(stdout, receiver->house, receiver->negotiation, receiver->message, receiver->length, direction,
                  printed);
    return sender->length == length && alike(sender, receiver) && end_now(sender) == end_now(receiver);
}

/* The first three messages are the same in both runs: keeps those of the first, and compares those of the second. */
static int same_message(int index, const struct end *end)
{
    static uint8_t kept[3][LAVUTREMO_MOST_MESSAGE_BYTES];
    static size_t lengths[3];
    if (index >= 3)
        return 1;
    if (lengths[index] == 0) {
        memcpy(kept[index], end->message, end->length);
        lengths[index] = end->length;
    }
    return lengths[index] == end->length && memcmp(kept[index], end->message, end->length) == 0;
}

/* Returns 1 if the run comes out as marked. */
static int negotiate_both(const struct run *run)
{
    static struct house mediating, requesting;
    static struct end mediator, requester;
    struct lavutremo_printed printed = {0};
    printf("(%c) 3.1 is wanted of 2\n", run->letter);
    read_house("tables of the mediator", run->mediator, &mediating);
    read_house("tables of the requester", run->requester, &requesting);
    int right = end_begin(&mediator, &mediating, house_self(&requesting), 3, 1) == 0 &&
                end_begin(&requester, &requesting, house_self(&mediating), 0, 0) == 0;
    for (int i = 0; i < 4 && right; i++) {
        right = i % 2 == 0 ? pass(&mediator, &requester, "mediator to requester", run->lengths[i], &printed)
                           : pass(&requester, &mediator, "requester to mediator", run->lengths[i], &printed);
        right = right && same_message(i, &mediator);
        right = right && end_now(&mediator) == (i < 3 ? LAVUTREMO_END_NONE : run->end);
    }
    printf("graph\n");
    print_graph(stdout, &mediating, mediator.negotiation);
    right = right && mediator.negotiation[NODE_COUNT_AT] == run->nodes;
    if (!right)
        printf("(%c) is marked otherwise\n", run->letter);
    return right;
}

int main(void)
{
    int right = 1;
    for (size_t i = 0; i < sizeof questions / sizeof questions[0]; i++)
        right &= ask(&questions[i]);
    for (size_t i = 0; i < sizeof runs / sizeof runs[0]; i++)
        right &= negotiate_both(&runs[i]);
    return !right;
}
