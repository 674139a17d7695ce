/* SPDX-License-Identifier: Apache-2.0 */
/* Turns house tables from text to records and back, and says what is wrong with them and where. */
#define _POSIX_C_SOURCE 200809L
#include <errno.h>
#include <signal.h>
#include <stdio.h>
#include <stdlib.h>
#include <string.h>

#include "arguments.h"
#include "house.h"
#include "output.h"
#include "text.h"

static const char help[] =
    "usage: tables records FROM TO   reads tables, writes their records\n"
    "       tables text FROM TO      reads tables, writes them as text\n"
    "       tables check FROM        reads tables and writes nothing\n"
    "       tables -h | --version\n"
    "FROM holds text or records: records begin with the byte 0x10. - is the standard input or output. TO is replaced when\n"
    "all of it is on disk; it may be no link and nothing but a regular file.\n"
    "\n"
    "A line of the text is one of\n"
    "    self 2\n"
    "    class 1 issuer-def           or issuer-all, subject-all\n"
    "    issued 3.1 <- 4.3            an issuer-stored credential\n"
    "    stored 4.3 <- 2              a subject-stored credential\n"
    "    sensitive 4.3 ack 1.2        a sensitive role and its Ack role\n"
    "    access 4.3 5.1               a sensitive role and its AC role\n"
    "or blank; # begins a comment. The body after <- is an entity 2, a role 4.3, a linked role 3.2.5 or an intersection\n"
    "2.2 & 3.3 of two to four roles, which ascend by entity, then name. Numbers run from 1 to 65535.\n"
    "\n"
    "A name without a class line is subject-all: only issuer-def and issuer-all names need one.\n"
    "\n"
    "The lines may stand in any order. The records are written in the order above, and those of one kind ascending by\n"
    "their bytes. A line that repeats another, or gives the class, Ack role or AC role of one a second time, is an error.\n"
    "\n"
    "Exits with 0, 2 for a wrong argument, 5 for wrong tables, 7 if a file cannot be read or written, 10 if TO cannot be\n"
    "given its name.\n";

static const struct program program = {.name = "tables", .help = help};

/* The bytes to be written; to be freed. NULL if there is no memory. */
static char *content_of(const struct house *house, int as_text, size_t *length)
{
    char *content = NULL;
    FILE *stream = open_memstream(&content, length);
    if (stream == NULL)
        return NULL;
    if (as_text)
        house_to_text(stream, house);
    else
        fwrite(house->bytes, 1, house->length, stream);
    if (fclose(stream) == 0)
        return content;
    free(content);
    return NULL;
}

/* No signal ends the program between the making of a temporary file and its end. */
static void hold_signals(void)
{
    sigset_t held;
    sigfillset(&held);
    sigprocmask(SIG_BLOCK, &held, NULL);
    signal(SIGXFSZ, SIG_IGN);
}

static enum status write_file(const char *path, const char *content, size_t length)
{
    struct output output;
    hold_signals();
    int written = output_open(&output, path) && output_write(&output, content, length) && output_finish(&output);
    output_discard(&output);
    if (written)
        return STATUS_SUCCESS;
    fprintf(stderr, "%s: %s\n", path, output.wrong);
    return output.status;
}

static enum status write_output(const char *content, size_t length)
{
    if (write_all(1, content, length))
        return STATUS_SUCCESS;
    fprintf(stderr, "standard output: %s\n", strerror(errno));
    return STATUS_DISK;
}

static enum status write_house(const char *path, const struct house *house, int as_text)
{
    size_t length;
    char *content = content_of(house, as_text, &length);
    if (content == NULL) {
        fprintf(stderr, "%s: no memory\n", path);
        return STATUS_DISK;
    }
    enum status status = strcmp(path, "-") == 0 ? write_output(content, length) : write_file(path, content, length);
    free(content);
    return status;
}

int main(int count, char **arguments)
{
    static struct house house;
    int first = read_options(&program, count, arguments);
    const char *verb = first < count ? arguments[first] : "";
    int as_text = strcmp(verb, "text") == 0, as_records = strcmp(verb, "records") == 0;
    int only_check = strcmp(verb, "check") == 0;
    if (first < count && !as_text && !as_records && !only_check)
        wrong_argument(&program, "verb", verb, "records, text or check is expected");
    if (count - first != (only_check ? 2 : 3))
        wrong_count(&program);
    enum status status = house_from_file(arguments[first + 1], &house);
    if (status != STATUS_SUCCESS || only_check)
        return status;
    return write_house(arguments[first + 2], &house, as_text);
}
