/* SPDX-License-Identifier: Apache-2.0 */
#define _GNU_SOURCE
#include "link.h"

#include <arpa/inet.h>
#include <errno.h>
#include <fcntl.h>
#include <linux/sockios.h>
#include <netinet/in.h>
#include <signal.h>
#include <string.h>
#include <sys/ioctl.h>
#include <sys/socket.h>
#include <time.h>
#include <unistd.h>

#include "lavutremo.h"

static const int stopping[] = {SIGINT, SIGTERM, SIGHUP};
static volatile sig_atomic_t stopped;

const char *link_words(enum link_result result)
{
    static const char *const words[] = {"done",
                                        "the other end closed the connection",
                                        "the time is over",
                                        "the connection broke",
                                        "a frame of no bytes or more than a message has",
                                        "stopped by a signal"};
    return words[result];
}

long long now_ns(void)
{
    struct timespec now;
    clock_gettime(CLOCK_MONOTONIC, &now);
    return now.tv_sec * 1000000000LL + now.tv_nsec;
}

long long now_ms(void)
{
    return now_ns() / 1000000;
}

static void stop(int signal)
{
    stopped = signal;
}

int link_stopped(void)
{
    return stopped;
}

void link_catch_signals(void)
{
    struct sigaction action = {.sa_handler = stop, .sa_flags = SA_RESTART}, before;
    sigemptyset(&action.sa_mask);
    for (size_t i = 0; i < sizeof stopping / sizeof stopping[0]; i++)
        if (sigaction(stopping[i], NULL, &before) == 0 && before.sa_handler != SIG_IGN)
            sigaction(stopping[i], &action, NULL);
    signal(SIGPIPE, SIG_IGN);
    signal(SIGXFSZ, SIG_IGN);
}

/* A signal between the look at stopped and the wait would be missed: it is held back until the wait has begun. */
static int poll_unless_stopped(struct pollfd *ready, nfds_t count, long long left)
{
    sigset_t held, before;
    struct timespec time = {left / 1000, left % 1000 * 1000000};
    sigemptyset(&held);
    for (size_t i = 0; i < sizeof stopping / sizeof stopping[0]; i++)
        sigaddset(&held, stopping[i]);
    sigprocmask(SIG_BLOCK, &held, &before);
    int found = -1;
    errno = EINTR;
    if (!stopped)
        found = ppoll(ready, count, &time, &before);
    int error = errno;
    sigprocmask(SIG_SETMASK, &before, NULL);
    errno = error;
    return found;
}

enum link_result link_poll(struct pollfd *ready, nfds_t count, long long until)
{
    long long left = until - now_ms();
    if (stopped)
        return LINK_STOPPED;
    int found = poll_unless_stopped(ready, count, left > 0 ? left : 0);
    if (found > 0)
        return LINK_DONE;
    if (found < 0 && errno != EINTR)
        return LINK_BROKEN;
    return stopped ? LINK_STOPPED : LINK_LATE;
}

int link_unblock(int socket)
{
    int flags = fcntl(socket, F_GETFL);
    return flags < 0 ? -1 : fcntl(socket, F_SETFL, flags | O_NONBLOCK);
}

static struct sockaddr_in loopback(uint16_t port)
{
    struct sockaddr_in address = {.sin_family = AF_INET, .sin_port = htons(port)};
    address.sin_addr.s_addr = htonl(INADDR_LOOPBACK);
    return address;
}

/* Closes the socket, keeping errno. */
static int give_up(int socket)
{
    int error = errno;
    close(socket);
    errno = error;
    return -1;
}

int link_listen(uint16_t port, int backlog)
{
    struct sockaddr_in address = loopback(port);
    int on = 1, listening = socket(AF_INET, SOCK_STREAM, 0);
    if (listening < 0)
        return -1;
    if (link_unblock(listening) < 0 ||
        setsockopt(listening, SOL_SOCKET, SO_REUSEADDR, &on, sizeof on) < 0 ||
        bind(listening, (struct sockaddr *)&address, sizeof address) < 0 || listen(listening, backlog) < 0)
        return give_up(listening);
    return listening;
}

/* Waits until the socket is ready. */
static enum link_result wait_for(int socket, short events, long long until)
{
    enum link_result result;
    do {
        if (now_ms() >= until)
            return LINK_LATE;
        struct pollfd ready = {.fd = socket, .events = events};
        result = link_poll(&ready, 1, until);
    } while (result == LINK_LATE);
    return result;
}

/* Waits for a connection that was begun. Returns 0, or -1 with errno. */
static int finish_connect(int socket, long long until)
{
    int error = 0;
    socklen_t size = sizeof error;
    enum link_result result = wait_for(socket, POLLOUT, until);
    if (result != LINK_DONE) {
        errno = result == LINK_STOPPED ? EINTR : ETIMEDOUT;
        return -1;
    }
    if (getsockopt(socket, SOL_SOCKET, SO_ERROR, &error, &size) < 0)
        return -1;
    errno = error;
    return error == 0 ? 0 : -1;
}

int link_connect(uint16_t port, long long until)
{
    struct sockaddr_in address = loopback(port);
    int made = socket(AF_INET, SOCK_STREAM, 0);
    if (made < 0)
        return -1;
    if (link_unblock(made) < 0)
        return give_up(made);
    if (connect(made, (struct sockaddr *)&address, sizeof address) == 0)
        return made;
    if ((errno == EINPROGRESS || errno == EINTR) && finish_connect(made, until) == 0)
        return made;
    return give_up(made);
}

uint16_t link_port(int socket)
{
    struct sockaddr_in address;
    socklen_t size = sizeof address;
    return getsockname(socket, (struct sockaddr *)&address, &size) < 0 ? 0 : ntohs(address.sin_port);
}

/* After a read or write that gave an error: wait, or what the error means. */
static enum link_result after_error(int socket, short events, long long until)
{
    if (errno == EAGAIN || errno == EWOULDBLOCK || errno == EINTR)
        return wait_for(socket, events, until);
    return errno == ECONNRESET || errno == EPIPE ? LINK_CLOSED : LINK_BROKEN;
}

enum link_result link_read_some(int socket, void *to, size_t most, size_t *count, long long until)
{
    enum link_result result = LINK_DONE;
    *count = 0;
    while (result == LINK_DONE) {
        if (stopped || now_ms() >= until)
            return stopped ? LINK_STOPPED : LINK_LATE;
        ssize_t done = recv(socket, to, most, 0);
        if (done >= 0) {
            *count = (size_t)done;
            return done == 0 ? LINK_CLOSED : LINK_DONE;
        }
        result = after_error(socket, POLLIN, until);
    }
    return result;
}

enum link_result link_write_some(int socket, const void *from, size_t most, size_t *count, long long until)
{
    enum link_result result = LINK_DONE;
    *count = 0;
    while (result == LINK_DONE) {
        if (stopped || now_ms() >= until)
            return stopped ? LINK_STOPPED : LINK_LATE;
        ssize_t done = send(socket, from, most, MSG_NOSIGNAL);
        if (done >= 0) {
            *count = (size_t)done;
            return LINK_DONE;
        }
        result = after_error(socket, POLLOUT, until);
    }
    return result;
}

enum link_result link_read(int socket, void *to, size_t length, long long until)
{
    uint8_t *at = to;
    enum link_result result = LINK_DONE;
    size_t count;
    for (; length > 0 && result == LINK_DONE; at += count, length -= count)
        result = link_read_some(socket, at, length, &count, until);
    return result;
}

enum link_result link_write(int socket, const void *from, size_t length, long long until)
{
    const uint8_t *at = from;
    enum link_result result = LINK_DONE;
    size_t count;
    for (; length > 0 && result == LINK_DONE; at += count, length -= count)
        result = link_write_some(socket, at, length, &count, until);
    return result;
}

enum link_result link_send(int socket, const uint8_t *message, size_t length, long long until)
{
    uint8_t frame[2 + LAVUTREMO_MOST_MESSAGE_BYTES];
    if (length > LAVUTREMO_MOST_MESSAGE_BYTES)
        return LINK_LONG;
    frame[0] = (uint8_t)(length >> 8);
    frame[1] = (uint8_t)(length & 255);
    memcpy(frame + 2, message, length);
    return link_write(socket, frame, 2 + length, until);
}

enum link_result link_receive(int socket, uint8_t *message, size_t *length, size_t most, long long until)
{
    uint8_t head[2];
    enum link_result result = link_read(socket, head, sizeof head, until);
    if (result != LINK_DONE)
        return result;
    *length = (size_t)(head[0] << 8 | head[1]);
    if (*length == 0 || *length > most)
        return LINK_LONG;
    return link_read(socket, message, *length, until);
}

int link_unarrived(int socket)
{
    int count = 0;
    return ioctl(socket, SIOCOUTQ, &count) < 0 ? 0 : count;
}

void link_finish(int socket, long long patience)
{
    uint8_t buffer[4096];
    size_t count, most = 1 << 20; /* of what is read away */
    int left = link_unarrived(socket);
    long long until = now_ms() + (left > 0 ? patience : 1000);
    enum link_result result = shutdown(socket, SHUT_WR) < 0 ? LINK_BROKEN : LINK_DONE;
    while ((result == LINK_DONE || result == LINK_LATE) && now_ms() < until && most > 0) {
        long long tick = now_ms() + 100;
        result = link_read_some(socket, buffer, sizeof buffer, &count, tick < until ? tick : until);
        most -= count < most ? count : most;
        int now = link_unarrived(socket);
        if (now < left)
            until = now_ms() + (now > 0 ? patience : 1000);
        left = now;
    }
    close(socket);
}
