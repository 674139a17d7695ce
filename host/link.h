/* SPDX-License-Identifier: Apache-2.0 */
/*
 * A TCP connection that does not block for longer than it is told: whole reads and writes with a time by which they must
 * be done, and messages framed by a length of two bytes, high byte first.
 */
#ifndef LINK_H
#define LINK_H

#include <poll.h>
#include <stddef.h>
#include <stdint.h>

enum link_result { LINK_DONE, LINK_CLOSED, LINK_LATE, LINK_BROKEN, LINK_LONG, LINK_STOPPED };

/* What a result is, in words. */
const char *link_words(enum link_result result);

/* Milliseconds and nanoseconds of a clock that is never set back. */
long long now_ms(void);
long long now_ns(void);

/*
 * From now on SIGINT, SIGTERM and SIGHUP, unless they are ignored as by nohup, end what waits, as LINK_STOPPED, and all
 * that waits later; SIGPIPE and SIGXFSZ are errors of the write instead.
 */
void link_catch_signals(void);
int link_stopped(void);

/* Waits until one of these is ready, a signal comes or a time of now_ms. LINK_DONE says that one is ready. */
enum link_result link_poll(struct pollfd *ready, nfds_t count, long long until);

/* Sockets on the loopback address, which do not block; -1 with errno if there is none. Port 0 lets the system choose. */
int link_listen(uint16_t port, int backlog);
int link_connect(uint16_t port, long long until);

/* The port of a socket. */
uint16_t link_port(int socket);

/* Makes a socket one that does not block. */
int link_unblock(int socket);

/* Read and write so many bytes until a time of now_ms. */
enum link_result link_read(int socket, void *to, size_t length, long long until);
enum link_result link_write(int socket, const void *from, size_t length, long long until);

/* Read and write at least one byte of so many, and say how many. */
enum link_result link_read_some(int socket, void *to, size_t most, size_t *count, long long until);
enum link_result link_write_some(int socket, const void *from, size_t most, size_t *count, long long until);

/*
 * Send and receive a message. A received one of no bytes, or of more than most, is LINK_LONG, and nothing of it is read.
 */
enum link_result link_send(int socket, const uint8_t *message, size_t length, long long until);
enum link_result link_receive(int socket, uint8_t *message, size_t *length, size_t most, long long until);

/* How many bytes that were sent have not arrived at the other end. */
int link_unarrived(int socket);

/*
 * Says that nothing more will be sent, and reads away what the other end still sends until it closes, so that unread
 * bytes do not reset the connection before all that was sent has arrived. Gives up when nothing moves for so long, and a
 * second after all has arrived. Closes the socket.
 */
void link_finish(int socket, long long patience);

#endif
