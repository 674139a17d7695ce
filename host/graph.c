/* SPDX-License-Identifier: Apache-2.0 */
/* Prints the graph of a stored negotiation, as text or for graphviz. */
#include <errno.h>
#include <stdio.h>
#include <string.h>

#include "arguments.h"
#include "dot.h"
#include "print.h"
#include "status.h"

static const char help[] =
    "usage: graph [-o text|dot] TABLES NEGOTIATION\n"
    "       graph -h | --version\n"
    "Prints the graph of NEGOTIATION, the 5,120 bytes that a host has stored, of the house with these TABLES: records, or\n"
    "text as the program tables reads it. - is the standard input.\n"
    "  -o text  a line for each node: number, role, holder, state, who asks; then the messages of each side, and the end. It\n"
    "           is so otherwise too.\n"
    "  -o dot   a picture in the language DOT; 'dot -Tsvg' of graphviz draws it\n"
    "Exits with 0, 2 for a wrong argument, 5 for tables or a negotiation that are refused, 7 if a file cannot be read or\n"
    "written.\n";

static const char *form = "text";

static const struct option_form options[] = {{.letter = 'o', .text = &form}};

static const struct program program = {"graph", help, options, 1};

/* Returns 1, or 0 after saying why not. A file of another length is read as well: the engine refuses it. */
static int read_negotiation(const char *path, uint8_t *negotiation, size_t most, size_t *length)
{
    FILE *file = strcmp(path, "-") == 0 ? stdin : fopen(path, "rb");
    if (file == NULL) {
        fprintf(stderr, "%s: %s\n", path, strerror(errno));
        return 0;
    }
    *length = fread(negotiation, 1, most, file);
    int failed = ferror(file);
    if (failed)
        fprintf(stderr, "%s: cannot be read\n", path);
    if (file != stdin)
        fclose(file);
    return !failed;
}

/* Whether the bytes are sound. A fresh negotiation is, and has no node 0. */
static int is_sound(const char *path, const struct house *house, const uint8_t *negotiation, size_t length)
{
    unsigned number = lavutremo_number(lavutremo_report(house->bytes, house->length, negotiation, length, 0));
    if (number == 0 || number == LAVUTREMO_ABSENT)
        return 1;
    fprintf(stderr, "%s: refused %u: %s\n", path, number, refusal_words(number));
    return 0;
}

static enum status print_stored(const char *tables, const char *path, int as_dot)
{
    static struct house house;
    static uint8_t negotiation[LAVUTREMO_NEGOTIATION_BYTES + 1];
    size_t length;
    enum status status = house_from_file(tables, &house);
    if (status != STATUS_SUCCESS)
        return status;
    if (!read_negotiation(path, negotiation, sizeof negotiation, &length))
        return STATUS_DISK;
    if (!is_sound(path, &house, negotiation, length))
        return STATUS_REFUSED;
    if (as_dot)
        print_dot(stdout, &house, negotiation);
    else
        print_graph(stdout, &house, negotiation);
    if (fflush(stdout) == 0)
        return STATUS_SUCCESS;
    fprintf(stderr, "graph: the output cannot be written\n");
    return STATUS_DISK;
}

int main(int count, char **arguments)
{
    int first = read_options(&program, count, arguments);
    int as_dot = strcmp(form, "dot") == 0;
    if (!as_dot && strcmp(form, "text") != 0)
        wrong_argument(&program, "-o", form, "text or dot is expected");
    if (count - first != 2)
        wrong_count(&program);
    return print_stored(arguments[first], arguments[first + 1], as_dot);
}
