/*
 * Prints how much stack each call needs: the call runs in a thread whose stack was painted before, and what lies between
 * the caller's frame and the lowest byte that lost its paint was in use. The largest figure of all runs is printed.
 *
 * The inputs are two negotiations, marked case (i) and one with linked roles and an intersection, full tables, and a
 * question over 64 credentials. Exits with 1 if one of these calls is refused, or needs more than the header says.
 */
#define _DEFAULT_SOURCE
#include <pthread.h>
#include <stdio.h>
#include <stdlib.h>
#include <string.h>
#include <sys/mman.h>

#include "end.h"
#include "print.h"
#include "text.h"

#define STACK_BYTES ((size_t)16 << 20)
#define PAINT 0xa5

enum call { CHECK, BEGIN, TAKE, REPLY, REPORT, QUESTION, CALLS };

static const char *const call_words[CALLS] = {"check", "begin", "take", "reply", "report", "question"};
static const size_t said[CALLS] = {8000, 8000, 122000, 129000, 86000, 57000}; /* by include/lavutremo.h */
static size_t most[CALLS];

/* What a call runs on. */
struct input {
    struct end *end;
    const struct house *house;
    uint16_t other, entity, name;
    const uint8_t *credentials;
    size_t length;
};

struct job {
    enum call call;
    const struct input *input;
    unsigned number;
    const uint8_t *caller; /* an address in the caller's frame */
};

static uint64_t ask(const struct input *input)
{
    static const uint8_t f[LAVUTREMO_EXPRESSION_BYTES] = {2, 0, 0, 1, 0, 1};
    static const uint8_t e[LAVUTREMO_EXPRESSION_BYTES] = {2, 0, 0, 9, 0, 9};
    return lavutremo_question(input->credentials, input->length, f, sizeof f, e, sizeof e);
}

static unsigned number_of(enum call call, const struct input *input)
{
    switch (call) {
    case CHECK:
        return lavutremo_number(lavutremo_check(input->house->bytes, input->house->length));
    case BEGIN:
        return end_begin(input->end, input->house, input->other, input->entity, input->name);
    case TAKE:
        return end_take(input->end);
    case REPLY:
        return end_reply(input->end);
    case REPORT:
        return lavutremo_number(lavutremo_report(input->house->bytes, input->house->length, input->end->negotiation,
                                                 sizeof input->end->negotiation, 0));
    default:
        return lavutremo_number(ask(input));
    }
}

static void *run(void *argument)
{
    struct job *job = argument;
    volatile uint8_t here = 0;
    job->caller = (const uint8_t *)&here;
    job->number = number_of(job->call, job->input);
    return NULL;
}

static void must(int done, const char *what)
{
    if (!done) {
        printf("stack: %s\n", what);
        exit(1);
    }
}

/* Runs the call on a painted stack. */
static void measure(enum call call, const struct input *input)
{
    static uint8_t *stack;
    struct job job = {.call = call, .input = input};
    pthread_attr_t attributes;
    pthread_t thread;
    if (stack == NULL) {
        stack = mmap(NULL, STACK_BYTES, PROT_READ | PROT_WRITE, MAP_PRIVATE | MAP_ANONYMOUS, -1, 0);
        must(stack != MAP_FAILED, "no memory");
    }
    memset(stack, PAINT, STACK_BYTES);
    must(pthread_attr_init(&attributes) == 0 && pthread_attr_setstack(&attributes, stack, STACK_BYTES) == 0 &&
             pthread_create(&thread, &attributes, run, &job) == 0 && pthread_join(thread, NULL) == 0,
         "no thread");
    pthread_attr_destroy(&attributes);
    must(job.number == 0, call_words[call]);
    const uint8_t *lowest = stack;
    while (*lowest == PAINT)
        lowest++;
    must(lowest > stack, "the stack was used up");
    size_t used = (size_t)(job.caller - lowest);
    if (used > most[call])
        most[call] = used;
}

static void read_house(const char *text, struct house *house)
{
    struct text_error error;
    must(text_to_house(text, strlen(text), house, &error), "tables");
}

/* A whole negotiation about 3.1 between 3 and 2, every call at both ends measured. Returns how it ended. */
static unsigned negotiation(const char *mediator, const char *requester)
{
    static struct house houses[2];
    static struct end ends[2];
    const struct input inputs[2] = {{.end = &ends[0], .house = &houses[0], .other = 2, .entity = 3, .name = 1},
                                    {.end = &ends[1], .house = &houses[1], .other = 3}};
    read_house(mediator, &houses[0]);
    read_house(requester, &houses[1]);
    for (int i = 0; i < 2; i++) {
        measure(CHECK, &inputs[i]);
        measure(BEGIN, &inputs[i]);
    }
    for (int i = 0;; i = !i) {
        measure(REPLY, &inputs[i]);
        measure(REPORT, &inputs[i]);
        memcpy(ends[!i].message, ends[i].message, ends[i].length);
        ends[!i].length = ends[i].length;
        measure(TAKE, &inputs[!i]);
        measure(REPORT, &inputs[!i]);
        if (end_now(&ends[i]) != LAVUTREMO_END_NONE)
            return end_now(&ends[i]);
    }
}

/* Tables at their sizes but for the access records, 3,491 bytes. */
static void full_tables(void)
{
    static char text[16384];
    static struct house house;
    size_t at = (size_t)sprintf(text, "self 2\n");
    for (int i = 1; i <= 64; i++)
        at += (size_t)sprintf(text + at, "class %d %s\nissued %d.1 <- %d.1\nstored %d.64 <- %d.64 & %d.64\n", i,
                              i <= 32 ? "issuer-def" : "subject-all", i, i + 1, i, i + 1, i + 2);
    for (int i = 1; i <= 32; i++)
        at += (size_t)sprintf(text + at, "sensitive %d.64 ack 1.2\n", i);
    read_house(text, &house);
    measure(CHECK, &(struct input){.house = &house});
}

/* 1.1 <- 1.1.1 and others of that form, so that every member is sought. */
static void full_question(void)
{
    static uint8_t credentials[LAVUTREMO_MOST_CREDENTIALS_BYTES];
    for (int i = 0; i < LAVUTREMO_MOST_CREDENTIALS; i++) {
        const uint8_t entity = (uint8_t)(i / 2 + 1);
        const uint8_t linked[] = {0x01, 0, entity, 0, 1, 3, 0, 0, entity, 0, 1, 0, 1};
        const uint8_t member[] = {0x01, 0, entity, 0, 1, 1, 0, 0, (uint8_t)(entity + 1)};
        memcpy(credentials + 23 * i, i % 2 ? linked : member, i % 2 ? sizeof linked : sizeof member);
    }
    credentials[sizeof credentials - 1] = 0x06;
    measure(QUESTION, &(struct input){.credentials = credentials, .length = sizeof credentials});
}

#define CLASSES "class 1 issuer-def\nclass 2 subject-all\nclass 3 subject-all\nclass 4 issuer-all\n"

int main(void)
{
    must(negotiation("self 3\n" CLASSES "issued 3.1 <- 4.3\nstored 1.2 <- 3\n",
                     "self 2\n" CLASSES "stored 4.3 <- 2\nsensitive 4.3 ack 1.2\n") == LAVUTREMO_END_SUCCESS,
         "case (i)");
    must(negotiation("self 3\n" CLASSES "issued 3.1 <- 3.4.3\nissued 3.4 <- 4\nissued 3.1 <- 3.2.3\nissued 3.1 <- 3.1.3\n"
                     "issued 3.1 <- 6.2 & 7.3\n",
                     "self 2\n" CLASSES "stored 6.2 <- 2\nstored 7.3 <- 2\nstored 3.2 <- 2\n") == LAVUTREMO_END_SUCCESS,
         "links and an intersection");
    full_tables();
    full_question();
    for (int i = 0; i < CALLS; i++)
        printf("%-10s %8zu bytes\n", call_words[i], most[i]);
    for (int i = 0; i < CALLS; i++)
        must(most[i] <= said[i], "a call needs more than include/lavutremo.h says");
    return 0;
}
