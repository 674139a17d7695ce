/* SPDX-License-Identifier: Apache-2.0 */
/* The requester: fetches a file from a mediator, after proving what it asks for. */
#define _POSIX_C_SOURCE 200809L
#include <errno.h>
#include <stdio.h>
#include <stdlib.h>
#include <string.h>
#include <unistd.h>

#include "arguments.h"
#include "digest.h"
#include "log.h"
#include "output.h"
#include "print.h"
#include "printout.h"
#include "transfer.h"

static const char help[] =
    "usage: fetch [-s SECONDS] [-m MESSAGES] [-g MILLISECONDS] [-b BYTES] [-k] TABLES OTHER PORT FILE\n"
    "       fetch -h | --version\n"
    "Fetches a file from the entity OTHER, which serves on PORT of the loopback address, and writes it to FILE. FILE is\n"
    "replaced when all of it is on disk; it may be no link and nothing but a regular file.\n"
    "TABLES are records, or text as the program tables reads it.\n"
    "  -s SECONDS       how long the negotiation may take, and then how long no byte of the file may come; the whole file\n"
    "                   may take a second more for each KiB: 1 to 3600, else 30\n"
    "  -m MESSAGES      how many messages the negotiation may have: 1 to 1027, else 64\n"
    "  -g MILLISECONDS  a message goes out a whole number of these after the last one came: 0 to 1000, else 50\n"
    "  -b BYTES         how long the file may be; otherwise 1 GiB\n"
    "  -k               keeps the printout as FILE.negotiation\n"
    "The peer is taken for OTHER and its credentials for signed: a transport that checks both has to stand between.\n"
    "Exits with 0, 1 failed, 2 a wrong argument, 3 stalled, 4 full, 5 refused, 6 the connection, 7 a file cannot be read or\n"
    "written, 8 more messages or bytes than allowed, 9 a signal, 10 FILE cannot be given its name.\n";

static struct errand {
    unsigned long long seconds, messages, grid, most_bytes;
    int keep;
    uint16_t port;
    const char *path;
    struct house house;
    struct end end;
} errand = {.seconds = 30, .messages = 64, .grid = 50, .most_bytes = 1ull << 30};

static const struct option_form options[] = {
    {.letter = 's', .number = &errand.seconds, .least = 1, .most = 3600},
    {.letter = 'm', .number = &errand.messages, .least = 1, .most = 1027},
    {.letter = 'g', .number = &errand.grid, .least = 0, .most = 1000},
    {.letter = 'b', .number = &errand.most_bytes, .least = 0, .most = UINT64_MAX},
    {.letter = 'k', .flag = &errand.keep},
};

static const struct program program = {"fetch", help, options, sizeof options / sizeof options[0]};

/* The two files that are written. */
struct outputs {
    struct output file, printout;
    char *printout_path;
};

static enum status say_not_received(FILE *to, const char *why, enum status status)
{
    fprintf(to, "%s: not received: %s\n", errand.path, why);
    return status;
}

/* Writes what comes next to the file. */
static enum status receive_bytes(int connection, struct output *file, uint64_t length, FILE *to)
{
    static uint8_t buffer[65536];
    struct patience patience = patience_for(length, (long long)errand.seconds * 1000);
    struct digest digest;
    uint64_t left = length;
    digest_begin(&digest);
    while (left > 0) {
        size_t count, most = left < sizeof buffer ? (size_t)left : sizeof buffer;
        enum link_result result = link_read_some(connection, buffer, most, &count, patience_now(&patience));
        if (result != LINK_DONE)
            return say_not_received(to, link_words(result), link_status(result));
        if (!output_write(file, buffer, count))
            return say_not_received(to, file->wrong, STATUS_DISK);
        digest_add(&digest, buffer, count);
        left -= count;
    }
    fprintf(to, "file %s, %llu bytes, SHA-256 %s\n", errand.path, (unsigned long long)length, digest_done(&digest));
    return STATUS_SUCCESS;
}

/* The file takes its name when all of it is there. */
static enum status receive_file(int connection, struct output *file, FILE *to)
{
    uint8_t head[8];
    uint64_t length = 0;
    enum link_result result = link_read(connection, head, sizeof head, now_ms() + (long long)errand.seconds * 1000);
    if (result != LINK_DONE)
        return say_not_received(to, link_words(result), link_status(result));
    for (int i = 0; i < 8; i++)
        length = length << 8 | head[i];
    if (length > errand.most_bytes)
        return say_not_received(to, "it is longer than allowed", STATUS_BOUND);
    enum status status = receive_bytes(connection, file, length, to);
    if (status == STATUS_SUCCESS && !output_finish(file))
        status = say_not_received(to, file->wrong, file->status);
    if (status == STATUS_SUCCESS)
        fprintf(to, "%s: received\n", errand.path);
    return status;
}

/* Negotiates and receives, and prints what came of it. */
static enum status run(int connection, const struct bounds *bounds, struct output *file, struct printout *printout)
{
    struct course course;
    time_t date = time(NULL);
    negotiate(&errand.end, connection, bounds, &course);
    enum status status = course_status(&course);
    printout_course(printout, &errand.end, &course, date);
    if (course.over == OVER_LINK || status == STATUS_SUCCESS) {
        if (status == STATUS_SUCCESS)
            status = receive_file(connection, file, printout->to);
        close(connection);
    } else {
        wait_for_grid(course.last, bounds->grid);
        link_finish(connection, (long long)errand.seconds * 1000);
    }
    course_free(&course);
    return status;
}

static enum status keep_printout(const struct printout *printout, struct output *to, enum status status)
{
    if (output_write(to, printout->text, printout->length) && output_finish(to))
        return status;
    fprintf(stderr, "%s: %s\n", to->path, to->wrong);
    return to->status;
}

static enum status fetch(struct outputs *outputs)
{
    struct bounds bounds = {now_ms() + (long long)errand.seconds * 1000, (long long)errand.grid * 1000000,
                            (unsigned)errand.messages};
    struct printout printout;
    int connection = link_connect(errand.port, bounds.until);
    if (connection < 0) {
        fprintf(stderr, "port %u: %s\n", errand.port, strerror(errno));
        return link_stopped() ? STATUS_SIGNAL : STATUS_CONNECTION;
    }
    if (!printout_open(&printout)) {
        perror("fetch");
        close(connection);
        return STATUS_DISK;
    }
    enum status status = run(connection, &bounds, &outputs->file, &printout);
    if (!printout_done(&printout)) {
        fprintf(stderr, "%s: no memory for the printout\n", errand.path);
        status = STATUS_DISK;
    } else {
        if (errand.keep)
            status = keep_printout(&printout, &outputs->printout, status);
        log_write(printout.text, printout.length);
    }
    printout_free(&printout);
    return status;
}

/* Before the first byte is sent, so that no credential is shown for a file that cannot be written. */
static int open_outputs(struct outputs *outputs)
{
    size_t size = strlen(errand.path) + sizeof ".negotiation";
    outputs->printout_path = malloc(size);
    if (outputs->printout_path == NULL || !log_open()) {
        perror("fetch");
        return 0;
    }
    snprintf(outputs->printout_path, size, "%s.negotiation", errand.path);
    if (!output_open(&outputs->file, errand.path)) {
        fprintf(stderr, "%s: %s\n", errand.path, outputs->file.wrong);
        return 0;
    }
    if (errand.keep && !output_open(&outputs->printout, outputs->printout_path)) {
        fprintf(stderr, "%s: %s\n", outputs->printout_path, outputs->printout.wrong);
        return 0;
    }
    return 1;
}

static void prepare(int count, char **arguments)
{
    uint16_t other;
    int first = read_options(&program, count, arguments);
    arguments += first;
    if (count - first != 4)
        wrong_count(&program);
    if (!argument_entity(arguments[1], &other))
        wrong_argument(&program, "OTHER", arguments[1], "an entity is expected, 1 to 65535");
    if (!argument_entity(arguments[2], &errand.port))
        wrong_argument(&program, "PORT", arguments[2], "a number from 1 to 65535 is expected");
    errand.path = arguments[3];
    enum status status = house_from_file(arguments[0], &errand.house);
    if (status != STATUS_SUCCESS)
        exit(status);
    unsigned number = end_begin(&errand.end, &errand.house, other, 0, 0);
    if (number != 0) {
        fprintf(stderr, "fetch: OTHER %u: begin refused %u: %s\n", other, number, refusal_words(number));
        exit(STATUS_REFUSED);
    }
}

int main(int count, char **arguments)
{
    static struct outputs outputs = {.file = {.file = -1}, .printout = {.file = -1}};
    prepare(count, arguments);
    link_catch_signals();
    enum status status = open_outputs(&outputs) ? fetch(&outputs) : STATUS_DISK;
    output_discard(&outputs.file);
    output_discard(&outputs.printout);
    free(outputs.printout_path);
    return status;
}
