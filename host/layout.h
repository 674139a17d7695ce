/* SPDX-License-Identifier: Apache-2.0 */
/* Where docs/LAYOUT.md puts what the host reads of a negotiation, and how a number is read. */
#ifndef LAYOUT_H
#define LAYOUT_H

#include <stdint.h>

enum {
    SIDE_AT = 1, /* 0 mediator, 1 requester */
    SELF_AT = 2,
    OTHER_AT = 4,
    WANTED_AT = 6, /* a role; zeros for the requester */
    END_AT = 10,
    MEDIATOR_MESSAGES_AT = 12,
    REQUESTER_MESSAGES_AT = 14,
    NODE_COUNT_AT = 16,
    EDGE_COUNT_AT = 17,
    SHOWN_COUNT_AT = 19,
    NODES_AT = 128, /* the header is over */
    NODE_BYTES = 22,
    NODE_SUBJECT_AT = 18,
    NODE_VERIFIER_AT = 20, /* 0 mediator, 1 requester */
    NODE_STATE_AT = 21,
    EDGES_AT = 2944,
    EDGE_BYTES = 3, /* kind, parent, child */
    SHOWN_AT = 3712,
    SHOWN_BYTES = 22
};

/* A number of two bytes, high byte first. */
static inline unsigned number_at(const uint8_t *bytes)
{
    return (unsigned)bytes[0] << 8 | bytes[1];
}

#endif
