/* SPDX-License-Identifier: Apache-2.0 */
/*
 * socket-pair MEDIATOR REQUESTER ENTITY NAME: negotiate.c at both ends of a pair of sockets, in two processes. MEDIATOR
 * and REQUESTER are files with tables as records. The mediator wants the role ENTITY.NAME proved of the requester. Prints
 * how it ended at each end; exits with 0 if it is success at both.
 */
#define _POSIX_C_SOURCE 200809L
#include <stdio.h>
#include <stdlib.h>
#include <sys/socket.h>
#include <sys/types.h>
#include <sys/wait.h>
#include <unistd.h>

#include "lavutremo.h"

/* Those of negotiate.c. The socket keeps messages apart, so that they need no frame. */
int negotiate(const uint8_t *tables, size_t tables_len, uint16_t other, uint16_t entity, uint16_t name);
int send_message(const uint8_t *message, size_t length);
size_t receive_message(uint8_t *message, size_t most);

static int connection;

int send_message(const uint8_t *message, size_t length)
{
    return send(connection, message, length, MSG_NOSIGNAL) == (ssize_t)length;
}

size_t receive_message(uint8_t *message, size_t most)
{
    ssize_t length = recv(connection, message, most, 0);
    return length > 0 ? (size_t)length : 0;
}

struct tables {
    uint8_t bytes[LAVUTREMO_MOST_TABLES_BYTES + 1];
    size_t length;
};

static void must(int done, const char *what)
{
    if (!done) {
        fprintf(stderr, "socket-pair: %s\n", what);
        exit(2);
    }
}

static void read_tables(const char *path, struct tables *tables)
{
    FILE *file = fopen(path, "rb");
    must(file != NULL, "tables cannot be read");
    tables->length = fread(tables->bytes, 1, sizeof tables->bytes, file);
    fclose(file);
    must(lavutremo_check(tables->bytes, tables->length) == 0, "tables refused");
}

/* The tables begin with 0x10 and the end's own entity, high byte first. */
static uint16_t self_of(const struct tables *tables)
{
    return (uint16_t)(tables->bytes[1] << 8 | tables->bytes[2]);
}

int main(int count, char **arguments)
{
    static struct tables mediator, requester;
    int sockets[2], status;
    must(count == 5, "MEDIATOR REQUESTER ENTITY NAME are expected");
    read_tables(arguments[1], &mediator);
    read_tables(arguments[2], &requester);
    must(socketpair(AF_UNIX, SOCK_SEQPACKET, 0, sockets) == 0, "no sockets");
    pid_t process = fork();
    must(process >= 0, "no process");
    connection = sockets[process == 0];
    close(sockets[process != 0]);
    if (process == 0)
        return !negotiate(requester.bytes, requester.length, self_of(&mediator), 0, 0);
    int success = negotiate(mediator.bytes, mediator.length, self_of(&requester), (uint16_t)atoi(arguments[3]),
                            (uint16_t)atoi(arguments[4]));
    close(connection);
    must(waitpid(process, &status, 0) == process && WIFEXITED(status), "the requester was stopped");
    printf("mediator: %s\nrequester: %s\n", success ? "success" : "no success",
           WEXITSTATUS(status) == 0 ? "success" : "no success");
    return !(success && WEXITSTATUS(status) == 0);
}
