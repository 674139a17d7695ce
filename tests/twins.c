/*
 * twins NUMBER with|without: negotiates as House, whose tables have the direct credentials of sensitive roles or not, and
 * prints a sum over its replies. Number 0 is marked case (i), as far as it goes before the Ack target is satisfied: the take
 * of the first message and the reply to it. Other numbers are the seeds of random tables, with a mediator that never
 * satisfies an Ack target, up to the end. House's calls are made in the function counted, and nothing else is.
 */
#include <stdio.h>
#include <stdlib.h>
#include <string.h>

#include "end.h"
#include "layout.h"
#include "text.h"

#define CLASSES "class 1 issuer-def\nclass 2 subject-all\nclass 3 subject-all\n"
#define MOST_TEXT 8192

static char house_text[MOST_TEXT], studio_text[MOST_TEXT];

/* Adds a line with numbers. */
static void add(char *text, const char *line, unsigned a, unsigned b, unsigned c, unsigned d)
{
    size_t length = strlen(text);
    snprintf(text + length, MOST_TEXT - length, line, a, b, c, d);
}

static void marked(int with)
{
    add(house_text, "sensitive 4.3 ack 1.2\n", 0, 0, 0, 0);
    if (with)
        add(house_text, "stored 4.3 <- 2\n", 0, 0, 0, 0);
    add(studio_text, "issued 3.1 <- 4.3\nstored 1.2 <- 3\n", 0, 0, 0, 0);
}

/*
 * The same draws whether with or without: only the direct credentials of sensitive roles are left out. Name 4 is not listed,
 * and so subject-all as name 3 is.
 */
static void draw(int with)
{
    unsigned count = 1 + (unsigned)rand() % 12;
    for (unsigned i = 0; i < count; i++) {
        unsigned entity = 10 + i, name = 3 + (unsigned)rand() % 2, other = 40 + (unsigned)rand() % 8;
        int is_sensitive = rand() % 4 != 0, held = rand() % 2, wanted = rand() % 2, chained = rand() % 3 == 0;
        if (is_sensitive)
            add(house_text, "sensitive %u.%u ack %u.2\n", entity, name, 1 + (unsigned)rand() % 3, 0);
        if (held && (with || !is_sensitive))
            add(house_text, "stored %u.%u <- 2\n", entity, name, 0, 0);
        if (chained)
            add(house_text, "stored %u.%u <- %u.3\n", entity, name, other + 10 * i, 0);
        if (wanted)
            add(studio_text, "issued 3.1 <- %u.%u\n", entity, name, 0, 0);
        else
            add(studio_text, "issued 3.1 <- %u.%u & 99.4\n", entity, name, 0, 0);
    }
}

static void must(int right, const char *what)
{
    if (!right) {
        printf("twins: %s\n", what);
        exit(2);
    }
}

static void read_text(const char *text, struct house *house)
{
    struct text_error error;
    if (!text_to_house(text, strlen(text), house, &error)) {
        printf("twins: %u:%u: %s\n%s", error.line, error.column, error.what, text);
        exit(2);
    }
}

/* House takes the message and replies, if the negotiation goes on. */
__attribute__((noinline)) void counted(struct end *house)
{
    if (end_take(house) == 0 && end_now(house) == LAVUTREMO_END_NONE)
        end_reply(house);
    else
        house->length = 0;
}

/* A sum that tells replies apart. */
static unsigned long sum_of(unsigned long sum, const struct end *end)
{
    for (size_t i = 0; i < end->length; i++)
        sum = 31 * sum + end->message[i] + 1;
    return sum;
}

static void pass(const struct end *from, struct end *to)
{
    memcpy(to->message, from->message, from->length);
    to->length = from->length;
}

int main(int count, char **arguments)
{
    static struct house studio_tables, house_tables;
    static struct end studio, house;
    unsigned long number = count == 3 ? strtoul(arguments[1], NULL, 10) : 0, sum = 0;
    must(count == 3, "NUMBER with|without");
    int with = strcmp(arguments[2], "with") == 0, exchanges = number == 0 ? 1 : 64;
    srand((unsigned)number);
    add(house_text, "self 2\n" CLASSES, 0, 0, 0, 0);
    add(studio_text, "self 3\n" CLASSES, 0, 0, 0, 0);
    if (number == 0)
        marked(with);
    else
        draw(with);
    read_text(studio_text, &studio_tables);
    read_text(house_text, &house_tables);
    must(end_begin(&studio, &studio_tables, 2, 3, 1) == 0 && end_begin(&house, &house_tables, 3, 0, 0) == 0, "no begin");
    for (int i = 0; i < exchanges && end_reply(&studio) == 0; i++) {
        pass(&studio, &house);
        counted(&house);
        sum = sum_of(sum, &house);
        pass(&house, &studio);
        if (house.length == 0 || end_now(&house) != LAVUTREMO_END_NONE || end_take(&studio) != 0)
            break;
    }
    printf("%lu, %u nodes, end %u\n", sum, house.negotiation[NODE_COUNT_AT], end_now(&house));
    return 0;
}
