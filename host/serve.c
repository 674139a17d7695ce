/* SPDX-License-Identifier: Apache-2.0 */
/*
 * The mediator: serves a file to those who prove a role.
 *
 * Each connection is one negotiation, in a process of its own. The file is sent if and only if the negotiation ended in
 * success and, where printouts are kept, its printout is on disk.
 */
#define _POSIX_C_SOURCE 200809L
#include <errno.h>
#include <signal.h>
#include <stdio.h>
#include <stdlib.h>
#include <string.h>
#include <sys/socket.h>
#include <sys/stat.h>
#include <sys/wait.h>
#include <unistd.h>

#include "arguments.h"
#include "log.h"
#include "print.h"
#include "printout.h"
#include "source.h"
#include "transfer.h"

static const char help[] =
    "usage: serve [-p PORT] [-s SECONDS] [-m MESSAGES] [-g MILLISECONDS] [-c CONNECTIONS] [-k FOLDER] TABLES OTHER ROLE FILE\n"
    "       serve -h | --version\n"
    "Serves FILE on the loopback address to the entity OTHER, once it has proved to be in ROLE, as 3.1.\n"
    "TABLES are records, or text as the program tables reads it.\n"
    "  -p PORT          the port; 0, which it is otherwise, lets the system choose. It is printed.\n"
    "  -s SECONDS       how long a negotiation may take, and then how long no byte of the file may move; the whole file may\n"
    "                   take a second more for each KiB: 1 to 3600, else 30\n"
    "  -m MESSAGES      how many messages a negotiation may have: 1 to 1027, else 64\n"
    "  -g MILLISECONDS  a message goes out a whole number of these after the last one came: 0 to 1000, else 50\n"
    "  -c CONNECTIONS   how many there may be at a time, others wait: 1 to 1000, else 64\n"
    "  -k FOLDER        keeps the printout of each negotiation in a file of its own in this folder. It is on disk before\n"
    "                   the file goes out; if it cannot be kept, the file is not sent.\n"
    "Whoever connects is taken for OTHER and every credential for signed: the peer and the credentials are taken for\n"
    "checked, by a transport that has to stand between.\n"
    "SIGTERM, SIGINT and SIGHUP end all negotiations, and then serve exits with 0. Otherwise it exits with 2 for a wrong\n"
    "argument, 5 if the tables or OTHER are refused, 6 if it cannot listen, 7 if FILE or FOLDER cannot be used.\n";

#define MOST_CONNECTIONS 1000

static struct service {
    unsigned long long port, seconds, messages, grid, connections;
    const char *folder;
    struct source source;
    struct house house;
    struct end fresh; /* the negotiation as begun */
} service = {.seconds = 30, .messages = 64, .grid = 50, .connections = 64};

static const struct option_form options[] = {
    {.letter = 'p', .number = &service.port, .least = 0, .most = 65535},
    {.letter = 's', .number = &service.seconds, .least = 1, .most = 3600},
    {.letter = 'm', .number = &service.messages, .least = 1, .most = 1027},
    {.letter = 'g', .number = &service.grid, .least = 0, .most = 1000},
    {.letter = 'c', .number = &service.connections, .least = 1, .most = MOST_CONNECTIONS},
    {.letter = 'k', .text = &service.folder},
};

static const struct program program = {"serve", help, options, sizeof options / sizeof options[0]};

static struct {
    pid_t list[MOST_CONNECTIONS];
    size_t count;
} children;

/* What is printed, kept and sent after a negotiation. */
struct delivery {
    struct printout printout;
    struct record record;
    time_t date;
    int release;
};

/* Prints the negotiation. Returns 1, or 0 if there is no memory. */
static int print_delivery(struct delivery *delivery, unsigned long number, const struct course *course)
{
    if (!printout_open(&delivery->printout))
        return 0;
    FILE *to = delivery->printout.to;
    fprintf(to, "connection %lu\n", number);
    source_print(&service.source, to);
    printout_course(&delivery->printout, &service.fresh, course, delivery->date);
    return printout_done(&delivery->printout);
}

/* Where printouts are to be kept, nothing is released without one. */
static void keep_delivery(struct delivery *delivery, unsigned long number, int printed)
{
    delivery->record = (struct record){.file = -1};
    if (service.folder == NULL)
        return;
    if (printed && record_keep(&delivery->record, service.folder, delivery->date, number, delivery->printout.text,
                               delivery->printout.length))
        return;
    char what[160];
    snprintf(what, sizeof what, "%sthe printout cannot be kept: %s", delivery->release ? "not sent, since " : "",
             printed ? strerror(errno) : "no memory");
    source_say(&service.source, what);
    delivery->release = 0;
}

/* The printout is whole once it says what became of the file. */
static void finish_delivery(struct delivery *delivery)
{
    const char *words = service.source.words;
    int closed = record_close(&delivery->record, words, strlen(words));
    printout_add(&delivery->printout, words);
    if (!closed)
        printout_add(&delivery->printout, "the printout that is kept could not be completed\n");
    log_write(delivery->printout.text, delivery->printout.length);
    printout_free(&delivery->printout);
}

/* One connection, from its beginning to its end. */
static void serve_one(int connection, unsigned long number)
{
    struct bounds bounds = {now_ms() + (long long)service.seconds * 1000, (long long)service.grid * 1000000,
                            (unsigned)service.messages};
    struct delivery delivery = {.date = time(NULL)};
    struct course course;
    long long pause = (long long)service.seconds * 1000;
    if (link_unblock(connection) < 0)
        return;
    negotiate(&service.fresh, connection, &bounds, &course);
    delivery.release = course_status(&course) == STATUS_SUCCESS && source_open(&service.source);
    int printed = print_delivery(&delivery, number, &course);
    keep_delivery(&delivery, number, printed);
    if (course.over != OVER_LINK)
        wait_for_grid(course.last, bounds.grid);
    if (delivery.release)
        source_send(&service.source, connection, pause);
    if (course.over == OVER_LINK)
        close(connection);
    else
        link_finish(connection, pause);
    course_free(&course);
    finish_delivery(&delivery);
}

/* Takes leave of processes that are over, waiting for each if so told. */
static void reap(int options)
{
    pid_t over;
    while (children.count > 0 && ((over = waitpid(-1, NULL, options)) > 0 || (over < 0 && errno == EINTR)))
        for (size_t i = 0; over > 0 && i < children.count; i++)
            if (children.list[i] == over)
                children.list[i] = children.list[--children.count];
}

/* Accepts a connection. Returns -1 if there is none yet, and ends the program if there can be none. */
static int accept_one(int listening)
{
    struct pollfd ready = {.fd = listening, .events = POLLIN};
    if (link_poll(&ready, 1, now_ms() + (children.count > 0 ? 100 : 3600000)) != LINK_DONE)
        return -1;
    int connection = accept(listening, NULL, NULL);
    if (connection >= 0)
        return connection;
    switch (errno) {
    case EBADF:
    case EFAULT:
    case EINVAL:
    case ENOTSOCK:
    case EOPNOTSUPP:
        perror("accept");
        exit(STATUS_CONNECTION);
    case EMFILE:
    case ENFILE:
    case ENOBUFS:
    case ENOMEM:
        link_poll(NULL, 0, now_ms() + 100);
    }
    return -1;
}

/* Where there can be no process, the peer waits until there can. */
static void start_child(int listening, int connection, unsigned long number)
{
    pid_t child;
    while ((child = fork()) < 0 && !link_stopped()) {
        link_poll(NULL, 0, now_ms() + 100);
        reap(WNOHANG);
    }
    if (child == 0) {
        close(listening);
        serve_one(connection, number);
        _exit(0);
    }
    if (child > 0)
        children.list[children.count++] = child;
    close(connection);
}

/* Until a signal comes: then ends the processes and waits for them. They keep their printouts. */
static void serve_all(int listening)
{
    unsigned long number = 0;
    while (!link_stopped()) {
        reap(WNOHANG);
        int connection = -1;
        if (children.count < service.connections)
            connection = accept_one(listening);
        else
            link_poll(NULL, 0, now_ms() + 100);
        if (connection >= 0)
            start_child(listening, connection, ++number);
    }
    for (size_t i = 0; i < children.count; i++)
        kill(children.list[i], SIGTERM);
    reap(0);
}

static void nothing(int signal)
{
    (void)signal;
}

/* A process that is over interrupts what waits, so that reap comes. */
static void set_signals(void)
{
    struct sigaction action = {.sa_handler = nothing, .sa_flags = SA_RESTART};
    sigemptyset(&action.sa_mask);
    sigaction(SIGCHLD, &action, NULL);
    link_catch_signals();
}

/* The file and the folder must be usable before anybody is asked for a credential. */
static void check_files(const char *path)
{
    struct stat status;
    if (!source_check(&service.source, path)) {
        fprintf(stderr, "serve: %s", service.source.words);
        exit(STATUS_DISK);
    }
    if (service.folder == NULL)
        return;
    if (stat(service.folder, &status) == 0 && !S_ISDIR(status.st_mode))
        errno = ENOTDIR;
    else if (access(service.folder, W_OK | X_OK) == 0)
        return;
    fprintf(stderr, "serve: %s: no printout can be kept there: %s\n", service.folder, strerror(errno));
    exit(STATUS_DISK);
}

/* Reads the arguments and the tables, and begins the negotiation that every connection starts from. */
static void prepare(int count, char **arguments)
{
    uint16_t other, entity, name;
    int first = read_options(&program, count, arguments);
    arguments += first;
    if (count - first != 4)
        wrong_count(&program);
    if (!argument_entity(arguments[1], &other))
        wrong_argument(&program, "OTHER", arguments[1], "an entity is expected, 1 to 65535");
    if (!argument_role(arguments[2], &entity, &name))
        wrong_argument(&program, "ROLE", arguments[2], "a role is expected, entity.name, as 3.1");
    enum status status = house_from_file(arguments[0], &service.house);
    if (status != STATUS_SUCCESS)
        exit(status);
    unsigned number = end_begin(&service.fresh, &service.house, other, entity, name);
    if (number != 0) {
        fprintf(stderr, "serve: OTHER %u, ROLE %u.%u: begin refused %u: %s\n", other, entity, name, number,
                refusal_words(number));
        exit(STATUS_REFUSED);
    }
    check_files(arguments[3]);
}

int main(int count, char **arguments)
{
    prepare(count, arguments);
    set_signals();
    int listening = link_listen((uint16_t)service.port, 128);
    if (listening < 0 || !log_open()) {
        fprintf(stderr, "serve: port %llu: %s\n", service.port, strerror(errno));
        return STATUS_CONNECTION;
    }
    printf("port %u\n", link_port(listening));
    fflush(stdout);
    serve_all(listening);
    return STATUS_SUCCESS;
}
