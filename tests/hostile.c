/*
 * Peers that serve and fetch must bear: hostile MODE PORT [ARGUMENT..]. Exits with 0 if the other end behaved: it closed
 * the connection in time and gave nothing but the messages of marked case (i) or (j) that were due.
 */
#define _POSIX_C_SOURCE 200809L
#include <errno.h>
#include <fcntl.h>
#include <netinet/in.h>
#include <poll.h>
#include <stdio.h>
#include <stdlib.h>
#include <string.h>
#include <sys/resource.h>
#include <sys/socket.h>
#include <unistd.h>

#include "link.h"

#define ROLE(entity, name) 2, 0, 0, entity, 0, name, 0, 0, 0, 0, 0, 0, 0, 0, 0, 0, 0, 0
#define ENTITY(entity) 1, 0, 0, entity, 0, 0, 0, 0, 0, 0, 0, 0, 0, 0, 0, 0, 0, 0

/* The messages of cases (i) and (j) with their two-byte lengths. */
static const uint8_t first[] = {0, 56, 0x02, 0, 3, 0, 1, 2, 0x01, 0, 3, 0, 1, ROLE(4, 3), 0x03, 1, 0, ROLE(4, 3), 0, 2, 1,
                                0x05, 0, 0x06};
static const uint8_t second[] = {0, 25, 0x03, 6, 1, ROLE(1, 2), 0, 3, 1, 0x06};
static const uint8_t third[] = {0, 50, 0x01, 0, 1, 0, 2, ENTITY(3), 0x03, 1, 2, ENTITY(3), 0, 3, 3, 0x05, 2, 0x06};
static const uint8_t fourth[] = {0, 48, 0x01, 0, 4, 0, 3, ENTITY(2), 0x03, 1, 1, ENTITY(2), 0, 2, 3, 0x06};
static const uint8_t fourth_failed[] = {0, 3, 0x05, 1, 0x06};
static const uint8_t idle[] = {0, 1, 0x06};

/* Longer than any server in the tests waits. */
#define PATIENCE 5000

static int wrong(const char *mode, const char *what)
{
    fprintf(stderr, "hostile %s: %s\n", mode, what);
    return 0;
}

static int connected(uint16_t port)
{
    int connection = link_connect(port, now_ms() + PATIENCE);
    if (connection < 0) {
        perror("hostile: connect");
        exit(1);
    }
    return connection;
}

/* What comes next is exactly this. */
static int comes(const char *mode, int connection, const uint8_t *bytes, size_t length)
{
    uint8_t buffer[256];
    if (link_read(connection, buffer, length, now_ms() + PATIENCE) != LINK_DONE)
        return wrong(mode, "a message is missing");
    return memcmp(buffer, bytes, length) == 0 || wrong(mode, "another message than expected");
}

/* Nothing more comes, and the other end closes the connection within so many milliseconds. */
static int closes(const char *mode, int connection, long long within)
{
    uint8_t byte;
    enum link_result result = link_read(connection, &byte, 1, now_ms() + within);
    close(connection);
    if (result == LINK_DONE)
        return wrong(mode, "more bytes came than were due");
    return result == LINK_CLOSED || wrong(mode, "the connection was not closed");
}

/* What cannot be sent, because the other end has closed, need not be. */
static void push(int connection, const void *bytes, size_t length)
{
    link_write(connection, bytes, length, now_ms() + PATIENCE);
}

/* Random bytes: as they are, or in frames of their length. */
static int garbage(uint16_t port, int count)
{
    uint8_t bytes[2 + 4096];
    srand(7);
    for (int i = 0; i < count; i++) {
        size_t length = 1 + (size_t)rand() % 4096;
        for (size_t j = 0; j < length; j++)
            bytes[2 + j] = (uint8_t)(i % 4 == 1 ? rand() % 7 : rand());
        bytes[0] = (uint8_t)(length >> 8);
        bytes[1] = (uint8_t)length;
        int connection = connected(port);
        push(connection, i % 2 ? bytes : bytes + 2, i % 2 ? length + 2 : length);
        shutdown(connection, SHUT_WR);
        if (!comes("garbage", connection, first, sizeof first) || !closes("garbage", connection, PATIENCE))
            return 0;
    }
    return 1;
}

/* An honest message, cut after each of its bytes; and after a first one that was whole. */
static int cut(uint16_t port, int unused)
{
    (void)unused;
    for (size_t length = 0; length < sizeof second; length++) {
        int connection = connected(port);
        push(connection, second, length);
        shutdown(connection, SHUT_WR);
        if (!comes("cut", connection, first, sizeof first) || !closes("cut", connection, PATIENCE))
            return 0;
    }
    int connection = connected(port);
    push(connection, second, sizeof second);
    push(connection, fourth, sizeof fourth - 1);
    shutdown(connection, SHUT_WR);
    return comes("cut", connection, first, sizeof first) && comes("cut", connection, third, sizeof third) &&
           closes("cut", connection, PATIENCE);
}

/* Sends nothing, half a length, half a message, and then waits, longer than the server does. */
static int stall(uint16_t port, int seconds)
{
    static const size_t lengths[] = {0, 1, 2, 10};
    int connections[4];
    for (int i = 0; i < 4; i++) {
        connections[i] = connected(port);
        push(connections[i], second, lengths[i]);
    }
    for (int i = 0; i < 4; i++)
        if (!comes("stall", connections[i], first, sizeof first) ||
            !closes("stall", connections[i], seconds * 1000LL + 2000))
            return 0;
    return 1;
}

/* A byte now and then: each comes in time, the whole does not. */
static int drip(uint16_t port, int seconds)
{
    int connection = connected(port);
    long long until = now_ms() + seconds * 1000LL + 2000;
    static const uint8_t head[] = {16, 0};
    push(connection, head, sizeof head);
    if (!comes("drip", connection, first, sizeof first))
        return 0;
    while (now_ms() < until) {
        struct pollfd ready = {.fd = connection, .events = POLLIN};
        if (poll(&ready, 1, 50) > 0)
            return closes("drip", connection, PATIENCE);
        push(connection, "\1", 1);
    }
    return wrong("drip", "the connection was not closed");
}

/* Frames that say 65,535 bytes and have them, and frames of none. */
static int large(uint16_t port, int count)
{
    static uint8_t frame[2 + 65535] = {255, 255};
    static const uint8_t none[2];
    for (int i = 0; i < count; i++) {
        int connection = connected(port);
        if (i % 2)
            push(connection, none, sizeof none);
        else
            for (int j = 0; j < 4; j++)
                push(connection, frame, sizeof frame);
        shutdown(connection, SHUT_WR);
        if (!comes("large", connection, first, sizeof first) || !closes("large", connection, PATIENCE))
            return 0;
    }
    return 1;
}

/* Case (j) by hand: it ends as failed, and no file follows. The same with an end alone, twice: stalled. */
static int denied(uint16_t port, int unused)
{
    (void)unused;
    int connection = connected(port);
    push(connection, second, sizeof second);
    push(connection, fourth_failed, sizeof fourth_failed);
    if (!comes("denied", connection, first, sizeof first) || !comes("denied", connection, third, sizeof third) ||
        !closes("denied", connection, PATIENCE))
        return 0;
    connection = connected(port);
    push(connection, idle, sizeof idle);
    return comes("denied", connection, first, sizeof first) && comes("denied", connection, idle, sizeof idle) &&
           closes("denied", connection, PATIENCE);
}

/* A message that is refused, and then the honest ones: nothing answers them. */
static int refused(uint16_t port, int unused)
{
    static const uint8_t absent[] = {0, 3, 0x05, 9, 0x06}, unjustified[] = {0, 25, 0x03, 1, 1, ENTITY(2), 0, 2, 3, 0x06};
    (void)unused;
    for (int i = 0; i < 2; i++) {
        int connection = connected(port);
        push(connection, i ? absent : unjustified, i ? sizeof absent : sizeof unjustified);
        push(connection, second, sizeof second);
        push(connection, fourth, sizeof fourth);
        if (!comes("refused", connection, first, sizeof first) || !closes("refused", connection, PATIENCE))
            return 0;
    }
    return 1;
}

/* Begins a connection and does not wait for it. */
static int begun(uint16_t port)
{
    struct sockaddr_in address = {.sin_family = AF_INET, .sin_port = htons(port)};
    address.sin_addr.s_addr = htonl(INADDR_LOOPBACK);
    int connection = socket(AF_INET, SOCK_STREAM, 0);
    if (connection >= 0 && link_unblock(connection) == 0 &&
        (connect(connection, (struct sockaddr *)&address, sizeof address) == 0 || errno == EINPROGRESS))
        return connection;
    perror("hostile: connect");
    exit(1);
}

/* As many open files as the system allows. */
static void raise_limit(void)
{
    struct rlimit limit;
    if (getrlimit(RLIMIT_NOFILE, &limit) == 0) {
        limit.rlim_cur = limit.rlim_max;
        setrlimit(RLIMIT_NOFILE, &limit);
    }
}

/* Opens so many connections, 500 at a time, each closed after a moment without a byte sent. */
static int flood(uint16_t port, int count)
{
    static int connections[500];
    raise_limit();
    for (int done = 0; done < count; done += 500) {
        for (int i = 0; i < 500; i++)
            connections[i] = begun(port);
        poll(NULL, 0, 50);
        for (int i = 0; i < 500; i++)
            close(connections[i]);
    }
    return 1;
}

/* How many of these connections have been given something. */
static int served(struct pollfd *connections, int count)
{
    int found = 0;
    poll(connections, (nfds_t)count, 0);
    for (int i = 0; i < count; i++)
        found += (connections[i].revents & POLLIN) != 0;
    return found;
}

/* Opens 100 connections, and keeps them until so many are served and a while longer. No more may be. */
static int hold(uint16_t port, int most)
{
    struct pollfd connections[100];
    for (int i = 0; i < 100; i++)
        connections[i] = (struct pollfd){.fd = begun(port), .events = POLLIN};
    for (int i = 0; i < 40 && served(connections, 100) < most; i++)
        poll(NULL, 0, 100);
    printf("held\n");
    fflush(stdout);
    poll(NULL, 0, 700);
    int found = served(connections, 100);
    if (found != most)
        fprintf(stderr, "hostile hold: %d of 100 were served, not %d\n", found, most);
    return found == most;
}

/* Appends an edge with a new child, a role of a holder: kind, parent, entity, name, holder, state. Returns the length. */
static size_t put_child(uint8_t *to, uint8_t kind, uint8_t parent, uint8_t entity, uint8_t name, uint8_t holder,
                        uint8_t state)
{
    const uint8_t child[] = {0x03, kind, parent, ROLE(entity, name), 0, holder, state};
    memcpy(to, child, sizeof child);
    return sizeof child;
}

/* A frame with so many control children of node 1, from this entity on, and an end. Returns its length. */
static size_t put_controls(uint8_t *frame, uint8_t entity, int count)
{
    size_t length = 2;
    for (int i = 0; i < count; i++)
        length += put_child(frame + length, 6, 1, (uint8_t)(entity + i), 2, 3, 1);
    frame[length++] = 0x06;
    frame[0] = (uint8_t)((length - 2) >> 8);
    frame[1] = (uint8_t)(length - 2);
    return length;
}

/* Reads a message whatever it is. */
static int any_message(int connection)
{
    uint8_t message[4096];
    size_t length;
    return link_receive(connection, message, &length, sizeof message, now_ms() + PATIENCE) == LINK_DONE;
}

/* Much to print for few bytes: 97 nodes, then one with each message, until there are 128 nodes or 64 messages. */
static int grow(uint16_t port, int unused)
{
    uint8_t frame[2 + 4096];
    (void)unused;
    int connection = connected(port), going = any_message(connection);
    for (int i = 0; i < 30 && going; i++) {
        push(connection, frame, i == 0 ? put_controls(frame, 4, 97) : put_controls(frame, (uint8_t)(100 + i), 1));
        going = any_message(connection);
    }
    close(connection);
    return going || wrong("grow", "the server did not go on");
}

/* So many nodes that the mediator cannot add the one that it needs: its end is full. */
static int fill(uint16_t port, int unused)
{
    uint8_t frame[2 + 4096];
    (void)unused;
    int connection = connected(port), going = any_message(connection);
    push(connection, frame, put_controls(frame, 1, 126));
    going = going && any_message(connection);
    return going && closes("fill", connection, PATIENCE);
}

/* Plays case (i) up to the file. */
static int proved(const char *mode, int connection, const uint8_t *behind, size_t length)
{
    if (!comes(mode, connection, first, sizeof first))
        return 0;
    push(connection, second, sizeof second);
    if (!comes(mode, connection, third, sizeof third))
        return 0;
    push(connection, fourth, sizeof fourth);
    push(connection, behind, length);
    return 1;
}

/* A socket that takes few bytes at a time. */
static int narrow(uint16_t port)
{
    struct sockaddr_in address = {.sin_family = AF_INET, .sin_port = htons(port)};
    int small = 4096, connection = socket(AF_INET, SOCK_STREAM, 0);
    address.sin_addr.s_addr = htonl(INADDR_LOOPBACK);
    setsockopt(connection, SOL_SOCKET, SO_RCVBUF, &small, sizeof small);
    if (connect(connection, (struct sockaddr *)&address, sizeof address) < 0 || link_unblock(connection) < 0) {
        perror("hostile: connect");
        exit(1);
    }
    return connection;
}

/* Reads a file of this length, 4 KiB at a time with a pause of so many milliseconds. */
static int file_comes(const char *mode, int connection, int length, int pause)
{
    uint8_t head[8], buffer[4096];
    size_t count;
    if (link_read(connection, head, sizeof head, now_ms() + PATIENCE) != LINK_DONE)
        return wrong(mode, "no file");
    for (; length > 0; length -= (int)count) {
        poll(NULL, 0, pause);
        if (link_read_some(connection, buffer, sizeof buffer, &count, now_ms() + PATIENCE) != LINK_DONE)
            return wrong(mode, "the file was cut short");
    }
    return closes(mode, connection, PATIENCE);
}

/* A reader that goes on steadily and slowly: what the system takes at a time, a megabyte, takes more than a second. */
static int slow(uint16_t port, int length)
{
    int connection = narrow(port);
    return proved("slow", connection, NULL, 0) && file_comes("slow", connection, length, 4);
}

/* Bytes behind the last message, and a reader that begins late. */
static int behind(uint16_t port, int length)
{
    static uint8_t more[100000];
    int connection = narrow(port);
    if (!proved("behind", connection, more, sizeof more))
        return 0;
    poll(NULL, 0, 300);
    return file_comes("behind", connection, length, 0);
}

/* Listens, prints the port and accepts. */
static int served_one(int listening)
{
    struct pollfd ready = {.fd = listening, .events = POLLIN};
    int connection = poll(&ready, 1, 4 * PATIENCE) > 0 ? accept(listening, NULL, NULL) : -1;
    if (connection < 0 || link_unblock(connection) < 0) {
        fprintf(stderr, "hostile: nobody came\n");
        exit(1);
    }
    return connection;
}

static int listens(uint16_t port)
{
    int listening = link_listen(port, 16);
    if (listening < 0) {
        perror("hostile: listen");
        exit(1);
    }
    printf("port %u\n", link_port(listening));
    fflush(stdout);
    return listening;
}

/* A server that plays case (i) and then gives less of the file than it says. Serves one connection. */
static int cheat(uint16_t port, int unused)
{
    static const uint8_t file[8 + 50] = {[7] = 100};
    uint8_t buffer[64];
    (void)unused;
    int connection = served_one(listens(port));
    push(connection, first, sizeof first);
    link_read(connection, buffer, sizeof second, now_ms() + PATIENCE);
    push(connection, third, sizeof third);
    enum link_result result = link_read(connection, buffer, sizeof fourth, now_ms() + PATIENCE);
    push(connection, file, sizeof file);
    close(connection);
    return result == LINK_DONE || wrong("cheat", "the fourth message is missing");
}

/* A server that plays case (i) and gives a file of so many pieces of 50 bytes, one now and then. */
static int trickle(uint16_t port, int pieces)
{
    static const uint8_t piece[50];
    uint8_t head[8] = {[6] = (uint8_t)(50 * pieces >> 8), [7] = (uint8_t)(50 * pieces)};
    int connection = served_one(listens(port));
    push(connection, first, sizeof first);
    any_message(connection);
    push(connection, third, sizeof third);
    any_message(connection);
    push(connection, head, sizeof head);
    for (int i = 0; i < pieces; i++) {
        poll(NULL, 0, 35);
        push(connection, piece, sizeof piece);
    }
    return closes("trickle", connection, PATIENCE);
}

/* A server that says nothing, until the other end closes. */
static int mute(uint16_t port, int unused)
{
    (void)unused;
    return closes("mute", served_one(listens(port)), 4 * PATIENCE);
}

/* A server whose message is refused: a mark of a node that is not there. */
static int refuse(uint16_t port, int unused)
{
    static const uint8_t bad[] = {0, 9, 0x02, 0, 3, 0, 1, 2, 0x05, 9, 0x06};
    (void)unused;
    int connection = served_one(listens(port));
    push(connection, bad, sizeof bad);
    return closes("refuse", connection, PATIENCE);
}

/* A server that has nothing more to do after its first message: stalled. */
static int rest(uint16_t port, int unused)
{
    (void)unused;
    int connection = served_one(listens(port));
    push(connection, first, sizeof first);
    if (!comes("rest", connection, second, sizeof second))
        return 0;
    push(connection, idle, sizeof idle);
    return comes("rest", connection, idle, sizeof idle) && closes("rest", connection, PATIENCE);
}

/* The credential 3.1 <- body and the edge from node 0 to the body as a new child. */
static size_t put_implied(uint8_t *to, const uint8_t *body, uint8_t state)
{
    const uint8_t head[] = {0x01, 0, 3, 0, 1}, edge[] = {0x03, 1, 0}, tail[] = {0, 2, state};
    memcpy(to, head, 5);
    memcpy(to + 5, body, 18);
    memcpy(to + 23, edge, 3);
    memcpy(to + 26, body, 18);
    memcpy(to + 44, tail, 3);
    return 47;
}

/* A server whose graph leaves no room for the node that the requester needs: 25 intersections of four, and two roles. */
static int crowd(uint16_t port, int unused)
{
    static const uint8_t open[] = {0x02, 0, 3, 0, 1, 2}, roles[2][18] = {{ROLE(4, 3)}, {ROLE(5, 3)}};
    uint8_t frame[2 + 4096];
    size_t length = 2 + sizeof open;
    (void)unused;
    memcpy(frame + 2, open, sizeof open);
    for (uint8_t i = 0; i < 25; i++) {
        uint8_t low = (uint8_t)(10 + i), high = (uint8_t)(100 + i), node = (uint8_t)(1 + 5 * i);
        const uint8_t body[18] = {4, 4, 0, low, 0, 2, 0, low, 0, 3, 0, high, 0, 2, 0, high, 0, 3};
        length += put_implied(frame + length, body, 2);
        for (uint8_t j = 0; j < 4; j++)
            length += put_child(frame + length, 5, node, j < 2 ? low : high, (uint8_t)(2 + j % 2), 2, 1);
    }
    length += put_implied(frame + length, roles[0], 1);
    length += put_implied(frame + length, roles[1], 1);
    frame[length++] = 0x06;
    frame[0] = (uint8_t)((length - 2) >> 8);
    frame[1] = (uint8_t)(length - 2);
    int connection = served_one(listens(port));
    push(connection, frame, length);
    return any_message(connection) && closes("crowd", connection, PATIENCE);
}

/* A copy of a frame with up to three changes, whose length may be told wrong then. Returns how long it is. */
static size_t changed(const uint8_t *frame, size_t length, uint8_t *to)
{
    memcpy(to, frame, length);
    for (int i = rand() % 4; i > 0; i--) {
        size_t at = 2 + (size_t)rand() % (length - 2);
        int kind = rand() % 4;
        if (kind == 0)
            to[at] = (uint8_t)rand();
        else if (kind == 1)
            to[at] ^= (uint8_t)(1 << rand() % 8);
        else if (kind == 2)
            length = at + 1;
        else if (length + 24 < 1000) {
            memmove(to + at + 24, to + at, length - at);
            length += 24;
        }
    }
    to[0] = (uint8_t)((length - 2) >> 8);
    to[1] = (uint8_t)(rand() % 8 == 0 ? rand() : (int)(length - 2));
    return length;
}

/* Whatever comes, until the other end closes. */
static int comes_to_an_end(const char *mode, int connection)
{
    uint8_t buffer[65536];
    size_t count;
    enum link_result result;
    long long until = now_ms() + PATIENCE;
    do
        result = link_read_some(connection, buffer, sizeof buffer, &count, until);
    while (result == LINK_DONE);
    close(connection);
    return result == LINK_CLOSED || wrong(mode, "the connection was not closed");
}

/* Honest messages with changes: so many connections, from a fixed seed. */
static int mutate(uint16_t port, int count)
{
    uint8_t frame[1000];
    srand(11);
    for (int i = 0; i < count; i++) {
        int connection = connected(port);
        any_message(connection);
        push(connection, frame, changed(second, sizeof second, frame));
        push(connection, frame, changed(fourth, sizeof fourth, frame));
        shutdown(connection, SHUT_WR);
        if (!comes_to_an_end("mutate", connection))
            return 0;
    }
    return 1;
}

/* The same as a server, with a file whose length may be told wrong. */
static int mutant(uint16_t port, int count)
{
    uint8_t frame[1000], file[8 + 50] = {0};
    int listening = listens(port);
    srand(13);
    for (int i = 0; i < count; i++) {
        int connection = served_one(listening);
        file[rand() % 8] = (uint8_t)(rand() % 4 == 0 ? rand() : 0);
        file[7] = (uint8_t)(rand() % 4 == 0 ? rand() : 50);
        push(connection, frame, changed(first, sizeof first, frame));
        push(connection, frame, changed(third, sizeof third, frame));
        push(connection, file, sizeof file);
        shutdown(connection, SHUT_WR);
        if (!comes_to_an_end("mutant", connection))
            return 0;
    }
    return 1;
}

/* The grid of the tests of time, in nanoseconds, and what a clock may differ by. */
#define GRID 20000000LL
#define CLOCK 100000LL

static int by_size(const void *one, const void *other)
{
    long long a = *(const long long *)one, b = *(const long long *)other;
    return (a > b) - (a < b);
}

/* How long the second message takes. */
static long long time_of_second(int listening)
{
    int connection = served_one(listening);
    long long start = now_ns();
    push(connection, first, sizeof first);
    if (!comes("time", connection, second, sizeof second))
        exit(1);
    long long time = now_ns() - start;
    close(connection);
    return time;
}

/*
 * A mediator that times how long the second message takes, for so many peers of each of two kinds: one, the other, the
 * other, one, and so on. No time may be less than the grid. Other work on the machine only adds to a time, so the quick
 * ones are compared, the tenth part of each kind: they may differ by half of what the middle half of all times lies apart.
 */
static int time_twins(uint16_t port, int rounds)
{
    static long long times[2][1000], all[2000];
    int listening = listens(port), counts[2] = {0, 0};
    rounds = rounds < 1000 ? rounds : 1000;
    for (int i = 0; i < 2 * rounds; i++) {
        int kind = i % 4 == 1 || i % 4 == 2;
        all[i] = times[kind][counts[kind]++] = time_of_second(listening);
    }
    qsort(times[0], (size_t)counts[0], sizeof times[0][0], by_size);
    qsort(times[1], (size_t)counts[1], sizeof times[1][0], by_size);
    qsort(all, 2 * (size_t)rounds, sizeof all[0], by_size);
    long long one = times[0][counts[0] / 10], other = times[1][counts[1] / 10];
    long long noise = (all[3 * rounds / 2] - all[rounds / 2]) / 2 + 10000;
    fprintf(stderr, "hostile time: quick ones %lld and %lld us, medians %lld and %lld us, noise %lld us, least %lld us\n",
            one / 1000, other / 1000, times[0][counts[0] / 2] / 1000, times[1][counts[1] / 2] / 1000, noise / 1000,
            all[0] / 1000);
    if (all[0] < GRID - CLOCK)
        return wrong("time", "a message came before its time");
    return llabs(one - other) <= noise || wrong("time", "the twins differ");
}

/* A requester: the mediator's first message comes no earlier than the grid after the connection, and so does its next. */
static int pace(uint16_t port, int unused)
{
    (void)unused;
    long long start = now_ns();
    int connection = connected(port);
    if (!comes("pace", connection, first, sizeof first))
        return 0;
    long long opened = now_ns() - start;
    start = now_ns();
    push(connection, second, sizeof second);
    if (!comes("pace", connection, third, sizeof third))
        return 0;
    long long replied = now_ns() - start;
    close(connection);
    return (opened >= GRID - CLOCK && replied >= GRID - CLOCK) || wrong("pace", "a message came before its time");
}

static const struct mode {
    const char *word;
    int (*play)(uint16_t port, int argument);
} modes[] = {{"garbage", garbage}, {"cut", cut},       {"stall", stall},   {"drip", drip},   {"large", large},
             {"denied", denied},   {"refused", refused}, {"flood", flood}, {"hold", hold},   {"cheat", cheat},
             {"grow", grow},       {"fill", fill},     {"slow", slow},     {"behind", behind}, {"mute", mute},
             {"refuse", refuse},   {"rest", rest},     {"crowd", crowd},   {"mutate", mutate}, {"mutant", mutant},
             {"time", time_twins}, {"pace", pace}, {"trickle", trickle}};

int main(int count, char **arguments)
{
    for (size_t i = 0; count >= 3 && i < sizeof modes / sizeof modes[0]; i++)
        if (strcmp(modes[i].word, arguments[1]) == 0)
            return !modes[i].play((uint16_t)atoi(arguments[2]), count > 3 ? atoi(arguments[3]) : 0);
    fprintf(stderr, "usage: hostile MODE PORT [ARGUMENT]\n");
    return 2;
}
