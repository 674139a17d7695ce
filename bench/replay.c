/*
 * Makes calls that it reads from its input, so that a tool sees the engine alone: build/bench starts it under callgrind
 * for instructions, and as build/copied for the bytes that the engine's calls of memcpy copy (linked with --wrap=memcpy).
 *
 * A call is a byte, the enum below, and its buffers, each after its length in four bytes, the lowest first. A row of
 * calls ends with ROW_END; then callgrind writes its counts, and a line with the bytes copied says that the row is done.
 * Buffers and stack begin at fixed places of a page, since how memcpy goes about a block depends on where it is.
 */
#define _DEFAULT_SOURCE
#include <pthread.h>
#include <stdio.h>
#include <stdlib.h>
#include <string.h>

#include "lavutremo.h"

#ifdef COPIED
#define CALLGRIND_DUMP_STATS
#else
#include <valgrind/callgrind.h>
#endif

#define PAGE 4096
#define MOST_BUFFERS 4
#define MOST_BYTES (4 * PAGE)
#define STACK_BYTES (4096 * PAGE)

enum call { ROW_END, QUESTION, CHECK, BEGIN, TAKE, REPLY, REPORT, CALLS };

static const unsigned buffer_count[CALLS] = {0, 3, 1, 3, 4, 4, 2};

static _Alignas(PAGE) uint8_t buffers[MOST_BUFFERS][MOST_BYTES];
static size_t lengths[MOST_BUFFERS];
static _Alignas(PAGE) uint8_t stack[STACK_BYTES];
static size_t copied;

#ifdef COPIED
void *__real_memcpy(void *to, const void *from, size_t length);
void *__wrap_memcpy(void *to, const void *from, size_t length);

void *__wrap_memcpy(void *to, const void *from, size_t length)
{
    copied += length;
    return __real_memcpy(to, from, length);
}
#endif

static void must(int done, const char *what)
{
    if (!done) {
        fprintf(stderr, "replay: %s\n", what);
        exit(1);
    }
}

static void read_buffer(unsigned number)
{
    uint8_t length[4];
    must(fread(length, 1, sizeof length, stdin) == sizeof length, "a length is cut off");
    lengths[number] = length[0] | (size_t)length[1] << 8 | (size_t)length[2] << 16 | (size_t)length[3] << 24;
    must(lengths[number] <= MOST_BYTES, "a buffer is too long");
    must(fread(buffers[number], 1, lengths[number], stdin) == lengths[number], "a buffer is cut off");
}

/* A number of two bytes, the highest first, in the last buffer of a begin: the other end, then the wanted role. */
static uint16_t number_at(unsigned place)
{
    return (uint16_t)(buffers[2][2 * place] << 8 | buffers[2][2 * place + 1]);
}

static uint64_t answer_of(enum call call)
{
    uint8_t *a = buffers[0], *b = buffers[1], *c = buffers[2], *d = buffers[3];
    const size_t *len = lengths;
    switch (call) {
    case QUESTION:
        return lavutremo_question(a, len[0], b, len[1], c, len[2]);
    case CHECK:
        return lavutremo_check(a, len[0]);
    case BEGIN:
        return lavutremo_begin(a, len[0], b, len[1], number_at(0), number_at(1), number_at(2));
    case TAKE:
        return lavutremo_take(a, len[0], b, len[1], c, len[2], d, len[3]);
    case REPLY:
        return lavutremo_reply(a, len[0], b, len[1], c, len[2], d, len[3]);
    default:
        return lavutremo_report(a, len[0], b, len[1], 0);
    }
}

static void *replay(void *none)
{
    size_t row = 0;
    for (int call = getchar(); call != EOF; call = getchar()) {
        must(call < CALLS, "no such call");
        if (call == ROW_END) {
            CALLGRIND_DUMP_STATS;
            printf("%zu\n", row);
            fflush(stdout);
            row = 0;
            continue;
        }
        for (unsigned i = 0; i < buffer_count[call]; i++)
            read_buffer(i);
        copied = 0;
        must(lavutremo_number(answer_of((enum call)call)) == 0, "a call was refused");
        row += copied;
    }
    return none;
}

int main(void)
{
    pthread_attr_t attributes;
    pthread_t thread;
    must(pthread_attr_init(&attributes) == 0, "no thread");
    must(pthread_attr_setstack(&attributes, stack, sizeof stack) == 0, "no stack");
    must(pthread_create(&thread, &attributes, replay, NULL) == 0, "no thread");
    must(pthread_join(thread, NULL) == 0, "no thread");
    return 0;
}
