/* SPDX-License-Identifier: Apache-2.0 */
/* What the programs of the host exit with. */
#ifndef STATUS_H
#define STATUS_H

enum status {
    STATUS_SUCCESS = 0,
    STATUS_FAILED = 1,     /* the negotiation ended as failed */
    STATUS_USAGE = 2,      /* an option or argument is wrong */
    STATUS_STALLED = 3,    /* it ended as stalled */
    STATUS_FULL = 4,       /* it ended as full */
    STATUS_REFUSED = 5,    /* tables, begin or a message were refused */
    STATUS_CONNECTION = 6, /* none, closed, broken, or the time is over */
    STATUS_DISK = 7,       /* a file cannot be read or written */
    STATUS_BOUND = 8,      /* more messages, or a longer file, than allowed */
    STATUS_SIGNAL = 9,     /* stopped by a signal */
    STATUS_NAME = 10       /* all of the file is there, but it cannot be given its name */
};

#endif
