/* SPDX-License-Identifier: Apache-2.0 */
/* Answers whether "f from e" holds over credentials that stand in a text, a line each. */
#define _POSIX_C_SOURCE 200809L
#include <errno.h>
#include <stdio.h>
#include <stdlib.h>
#include <string.h>
#include <sys/types.h>

#include "arguments.h"
#include "print.h"
#include "read.h"

enum { YES, NO, WRONG };

static const char help[] =
    "usage: ask CREDENTIALS F E\n"
    "       ask -h | --version\n"
    "Does 'F from E' hold in RT0 over these credentials: is E part of F? Where E is an entity: is E a member of F?\n"
    "CREDENTIALS is a text with a credential a line, as 3.1 <- 4.3, at most 64; # begins a comment; - is the standard\n"
    "input. F and E are an entity 2, a role 4.3, a linked role 2.2.3 or an intersection '2.2 & 3.3' of two to four roles,\n"
    "which ascend by entity, then name.\n"
    "Prints yes or no. Exits with 0 for yes, 1 for no, 2 if something is wrong or refused.\n";

static const struct program program = {.name = "ask", .help = help};

/* The credentials as lavutremo_question takes them. */
struct credentials {
    uint8_t bytes[LAVUTREMO_MOST_CREDENTIALS_BYTES];
    size_t length;
};

static int no_more(struct cursor *cursor)
{
    return at_end(cursor) || fail(cursor, cursor->at, "nothing more is expected here");
}

/* Adds the line's credential, if it has one. Leaves room for the end. Returns 1, or 0 with what is wrong. */
static int add_line(struct cursor *cursor, struct credentials *credentials)
{
    if (at_end(cursor))
        return 1;
    if (credentials->length + LAVUTREMO_CREDENTIAL_BYTES >= sizeof credentials->bytes)
        return fail(cursor, cursor->at, "64 credentials are the most");
    uint8_t *command = credentials->bytes + credentials->length;
    if (!read_credential(cursor, command + 1) || !no_more(cursor))
        return 0;
    command[0] = LAVUTREMO_COMMAND_CREDENTIAL;
    credentials->length += LAVUTREMO_CREDENTIAL_BYTES;
    return 1;
}

/* Returns 1, or 0 after saying what is wrong and where. */
static int read_lines(FILE *file, const char *path, struct credentials *credentials)
{
    char *line = NULL;
    size_t size = 0;
    ssize_t length;
    int right = 1;
    for (unsigned number = 1; right && (length = getline(&line, &size, file)) > 0; number++) {
        struct cursor cursor;
        cursor_on(&cursor, line, (size_t)(line[length - 1] == '\n' ? length - 1 : length));
        right = add_line(&cursor, credentials);
        if (!right)
            fprintf(stderr, "%s:%u:%d: %s\n", path, number, (int)(cursor.where - line) + 1, cursor.wrong);
    }
    free(line);
    if (ferror(file))
        fprintf(stderr, "%s: cannot be read\n", path);
    return right && !ferror(file);
}

static int load_credentials(const char *path, struct credentials *credentials)
{
    FILE *file = strcmp(path, "-") == 0 ? stdin : fopen(path, "r");
    if (file == NULL) {
        fprintf(stderr, "%s: %s\n", path, strerror(errno));
        return 0;
    }
    int right = read_lines(file, path, credentials);
    credentials->bytes[credentials->length++] = LAVUTREMO_COMMAND_END;
    if (file != stdin)
        fclose(file);
    return right;
}

static int load_expression(const char *text, uint8_t *expression)
{
    struct cursor cursor;
    cursor_on(&cursor, text, strlen(text));
    if (read_expression(&cursor, expression) && no_more(&cursor))
        return 1;
    fprintf(stderr, "%s:%d: %s\n", text, (int)(cursor.where - text) + 1, cursor.wrong);
    return 0;
}

static int answer_to(const char *path, const char *f_text, const char *e_text)
{
    static struct credentials credentials;
    uint8_t f[LAVUTREMO_EXPRESSION_BYTES], e[LAVUTREMO_EXPRESSION_BYTES];
    if (!load_expression(f_text, f) || !load_expression(e_text, e) || !load_credentials(path, &credentials))
        return WRONG;
    uint64_t answer = lavutremo_question(credentials.bytes, credentials.length, f, sizeof f, e, sizeof e);
    if (lavutremo_number(answer) != 0) {
        fprintf(stderr, "ask: refused %u: %s\n", lavutremo_number(answer), refusal_words(lavutremo_number(answer)));
        return WRONG;
    }
    int yes = lavutremo_value(answer) == 1;
    if (puts(yes ? "yes" : "no") == EOF || fflush(stdout) != 0)
        return WRONG;
    return yes ? YES : NO;
}

int main(int count, char **arguments)
{
    int first = read_options(&program, count, arguments);
    if (count - first != 3)
        wrong_count(&program);
    return answer_to(arguments[first], arguments[first + 1], arguments[first + 2]);
}
