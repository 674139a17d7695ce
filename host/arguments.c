/* SPDX-License-Identifier: Apache-2.0 */
#define _GNU_SOURCE
#include "arguments.h"

#include <fcntl.h>
#include <getopt.h>
#include <stdio.h>
#include <stdlib.h>
#include <string.h>
#include <unistd.h>

#include "lavutremo.h"
#include "layout.h"
#include "read.h"
#include "status.h"

int argument_number(const char *text, unsigned long long least, unsigned long long most, unsigned long long *number)
{
    unsigned long long value = 0;
    if (*text == '\0')
        return 0;
    for (; *text != '\0'; text++) {
        if (*text < '0' || *text > '9')
            return 0;
        unsigned digit = (unsigned)(*text - '0');
        if (digit > most || value > (most - digit) / 10)
            return 0;
        value = 10 * value + digit;
    }
    *number = value;
    return value >= least;
}

int argument_entity(const char *text, uint16_t *entity)
{
    unsigned long long number;
    if (!argument_number(text, 1, 65535, &number))
        return 0;
    *entity = (uint16_t)number;
    return 1;
}

int argument_role(const char *text, uint16_t *entity, uint16_t *name)
{
    struct cursor cursor;
    uint8_t role[4];
    cursor_on(&cursor, text, strlen(text));
    if (!read_role(&cursor, role) || cursor.at != cursor.end)
        return 0;
    *entity = (uint16_t)number_at(role);
    *name = (uint16_t)number_at(role + 2);
    return 1;
}

_Noreturn void wrong_argument(const struct program *program, const char *what, const char *text, const char *expected)
{
    fprintf(stderr, "%s: %s %s: %s\n%s -h says what it takes\n", program->name, what, text, expected, program->name);
    exit(STATUS_USAGE);
}

_Noreturn void wrong_count(const struct program *program)
{
    fputs(program->help, stderr);
    exit(STATUS_USAGE);
}

_Noreturn static void answer(const struct program *program, int letter)
{
    if (letter == 'h')
        fputs(program->help, stdout);
    else
        printf("%s %s\n", program->name, LAVUTREMO_VERSION);
    exit(fflush(stdout) == 0 ? STATUS_SUCCESS : STATUS_DISK);
}

static void read_option(const struct program *program, const struct option_form *option)
{
    char what[] = {'-', option->letter, '\0'}, expected[80];
    if (option->flag != NULL)
        *option->flag = 1;
    else if (option->text != NULL)
        *option->text = optarg;
    else if (!argument_number(optarg, option->least, option->most, option->number)) {
        snprintf(expected, sizeof expected, "a number from %llu to %llu is expected", option->least, option->most);
        wrong_argument(program, what, optarg, expected);
    }
}

/* The letters as getopt takes them. */
static void list_letters(const struct program *program, char *to)
{
    to += sprintf(to, ":h");
    for (size_t i = 0; i < program->option_count; i++)
        to += sprintf(to, "%c%s", program->options[i].letter, program->options[i].flag != NULL ? "" : ":");
}

static const struct option_form *find_option(const struct program *program, int letter)
{
    for (size_t i = 0; i < program->option_count; i++)
        if (program->options[i].letter == letter)
            return &program->options[i];
    return NULL;
}

/* A standard file that is closed would be the next one to be opened, and what is printed would go there. */
static void open_standard_files(void)
{
    int file;
    do
        file = open("/dev/null", O_RDWR);
    while (file >= 0 && file <= STDERR_FILENO);
    if (file >= 0)
        close(file);
}

int read_options(const struct program *program, int count, char **arguments)
{
    static const struct option words[] = {{"help", no_argument, NULL, 'h'}, {"version", no_argument, NULL, 'V'}, {0}};
    char letters[64], wrong[3] = "-";
    int letter;
    open_standard_files();
    list_letters(program, letters);
    opterr = 0;
    while ((letter = getopt_long(count, arguments, letters, words, NULL)) != -1) {
        const struct option_form *option = find_option(program, letter);
        wrong[1] = (char)optopt;
        if (letter == 'h' || letter == 'V')
            answer(program, letter);
        if (option != NULL)
            read_option(program, option);
        else if (letter == ':')
            wrong_argument(program, "option", wrong, "something is expected after it");
        else
            wrong_argument(program, "option", optopt > ' ' && optopt < 127 ? wrong : arguments[optind - 1], "unknown");
    }
    return optind;
}
