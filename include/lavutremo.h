/* SPDX-License-Identifier: Apache-2.0 */
/*
 * Lavutremo: a trust negotiation engine. C11 and C++17.
 *
 * Numbers of entities and names are two bytes, high byte first, from 1 to 65,535; zero marks an unused field.
 *
 * An expression is 18 bytes: kind, part count, eight numbers, unused ones zero.
 *   kind 1, entity:        entity
 *   kind 2, role:          entity, name
 *   kind 3, linked role:   entity, name, name
 *   kind 4, intersection:  two to four roles (entity, name), strictly ascending by entity, then name
 *   kind 5, goal:          name; in a graph only
 * The part count is 2 to 4 for an intersection, else 0.
 *
 * Commands:
 *   0x01 credential, 23 bytes: 0x01, issuer, name, body. The body is an expression of kind 1 to 4, and a linked body
 *        begins with the issuer. It says that every member of the body is a member of the role issuer.name.
 *   0x02 open, 6 bytes: 0x02, role, state. The first target: the requester in the role.
 *   0x03 edge with a new child, 24 bytes: 0x03, edge kind, parent, child's expression, child's subject, child's state.
 *   0x04 edge between old nodes, 4 bytes: 0x04, edge kind, parent, child.
 *   0x05 mark, 2 bytes: 0x05, node. The sender has processed the node.
 *   0x06 end, 1 byte: stands last and only there.
 * A message is 0x01 to 0x05 in any number, then an end. Nodes are numbered in one byte from 0 as added; bit 0 of a state
 * says that the node's verifier has processed it, bit 1 that the verifier's opponent has. Edge kinds: 1 implication,
 * 2 linking monitor, 3 linking solution, 4 linking implication, 5 intersection, 6 control.
 *
 * House tables are records one after another, in this order, without an end:
 *   0x10 self, 3 bytes: one number; the first record, and once.
 *   0x11 name, 4 bytes: a role name and its class byte, 1 issuer-def, 2 issuer-all, 3 subject-all. A name that no 0x11
 *        record lists is subject-all, in tables and messages alike: only names of class 1 and 2 need such a record.
 *   0x12 issuer-stored and 0x13 subject-stored credential, 23 bytes: as 0x01.
 *   0x14 sensitive role, 9 bytes: the role and its Ack role, entity and name each.
 *   0x15 access control, 9 bytes: a sensitive role and its AC role.
 * Records of one command ascend strictly by bytes; 0x11, 0x14 and 0x15 never repeat their first operand.
 *
 * Class rules: a linked role is subject-all if both names are, issuer-all if both are, issuer-def if the first is 1 or
 * 2 and the second 3, or the first 2 and the second 1, and otherwise ill-typed. An intersection is of class 2 or 3 if
 * all parts are, else 1. An entity suits every class. A credential whose head is class 2 or 3 needs a body of that
 * class; class 1 takes any well-typed body. Heads of 0x12 have class 1 or 2, of 0x13 class 3. Sensitive roles have
 * class 3. An 0x15 record needs the credential role <- self in 0x13, and the role in 0x14.
 *
 * The calls allocate no memory. The stack that they need, in bytes, measured on x86-64 by painting it (make stack):
 *   check 8,000, begin 8,000, question 57,000, report 86,000, take 122,000, reply 129,000.
 * A thread that calls them needs a stack of 256 KiB or more: of 128 KiB a take and a reply leave next to nothing.
 */
#ifndef LAVUTREMO_H
#define LAVUTREMO_H

#include <stddef.h>
#include <stdint.h>

/* The version of this header and of the library that comes with it. */
#define LAVUTREMO_VERSION "2.1.0"

/* The first byte of a message's command. */
enum {
    LAVUTREMO_COMMAND_CREDENTIAL = 0x01,
    LAVUTREMO_COMMAND_OPEN = 0x02,
    LAVUTREMO_COMMAND_CHILD = 0x03, /* edge with a new child */
    LAVUTREMO_COMMAND_EDGE = 0x04,  /* edge between old nodes */
    LAVUTREMO_COMMAND_MARK = 0x05,
    LAVUTREMO_COMMAND_END = 0x06
};

/* The first byte of a record of tables. */
enum {
    LAVUTREMO_RECORD_SELF = 0x10,
    LAVUTREMO_RECORD_NAME = 0x11,
    LAVUTREMO_RECORD_ISSUED = 0x12, /* issuer-stored credential */
    LAVUTREMO_RECORD_STORED = 0x13, /* subject-stored credential */
    LAVUTREMO_RECORD_SENSITIVE = 0x14,
    LAVUTREMO_RECORD_ACCESS = 0x15
};

/* The kind of an expression, its first byte. */
enum {
    LAVUTREMO_KIND_ENTITY = 1,
    LAVUTREMO_KIND_ROLE = 2,
    LAVUTREMO_KIND_LINKED = 3,
    LAVUTREMO_KIND_INTERSECTION = 4,
    LAVUTREMO_KIND_GOAL = 5 /* in a graph only */
};

/* The class of a role name. One that the tables do not list is subject-all. */
enum { LAVUTREMO_CLASS_ISSUER_DEF = 1, LAVUTREMO_CLASS_ISSUER_ALL = 2, LAVUTREMO_CLASS_SUBJECT_ALL = 3 };

/* The kind of an edge. */
enum {
    LAVUTREMO_EDGE_IMPLICATION = 1,
    LAVUTREMO_EDGE_LINKING_MONITOR = 2,
    LAVUTREMO_EDGE_LINKING_SOLUTION = 3,
    LAVUTREMO_EDGE_LINKING_IMPLICATION = 4,
    LAVUTREMO_EDGE_INTERSECTION = 5,
    LAVUTREMO_EDGE_CONTROL = 6
};

/* Why a call is refused. */
#define LAVUTREMO_LENGTH 1u   /* a lent length outside the sizes */
#define LAVUTREMO_COMMAND 2u  /* an unknown or cut command, a missing end, bytes after the end */
#define LAVUTREMO_OPERAND 3u  /* an operand of wrong form */
#define LAVUTREMO_NAME 4u     /* returned by no call: a name that no 0x11 record lists counts as subject-all */
#define LAVUTREMO_CLASS 5u    /* a class rule broken */
#define LAVUTREMO_ORDER 6u    /* tables out of order, repeated, self missing, or a size passed */
#define LAVUTREMO_OTHER 7u    /* at begin: the other end is zero or self */
#define LAVUTREMO_DAMAGED 20u /* the negotiation is damaged, or its layout number is not 2 */
#define LAVUTREMO_TURN 21u    /* not that side's turn */
#define LAVUTREMO_ENDED 22u   /* already ended */
#define LAVUTREMO_OPENING 23u /* a command but open while no node stands, or open later */
#define LAVUTREMO_ABSENT 24u  /* no such node */
#define LAVUTREMO_PRESENT 25u /* edge form wrong, or node, edge or credential already present */
#define LAVUTREMO_UNJUSTIFIED 26u /* not justified */
#define LAVUTREMO_PROCESSED 27u   /* already processed by the sender */
#define LAVUTREMO_FULL 28u    /* a size passed */

/* The propagated state of a node, and the end of a negotiation, as lavutremo_report gives them. */
#define LAVUTREMO_UNKNOWN 0u /* or incomplete, of a goal */
#define LAVUTREMO_SATISFIED 1u /* or complete, of a goal */
#define LAVUTREMO_FAILED 2u
#define LAVUTREMO_END_NONE 0u
#define LAVUTREMO_END_SUCCESS 1u
#define LAVUTREMO_END_FAILED 2u
#define LAVUTREMO_END_STALLED 3u
#define LAVUTREMO_END_FULL 4u

/* Sizes in bytes. */
#define LAVUTREMO_EXPRESSION_BYTES 18
#define LAVUTREMO_CREDENTIAL_BYTES 23
#define LAVUTREMO_MOST_CREDENTIALS 64
#define LAVUTREMO_MOST_CREDENTIALS_BYTES (LAVUTREMO_MOST_CREDENTIALS * LAVUTREMO_CREDENTIAL_BYTES + 1)
#define LAVUTREMO_MOST_TABLES_BYTES 4096
#define LAVUTREMO_NEGOTIATION_BYTES 5120
#define LAVUTREMO_MOST_MESSAGE_BYTES 4096
#define LAVUTREMO_LEAST_REPLY_BYTES 4096
#define LAVUTREMO_SCRATCH_BYTES 4096

/* Sizes of a negotiation in records. */
#define LAVUTREMO_MOST_NODES 128
#define LAVUTREMO_MOST_EDGES 256
#define LAVUTREMO_MOST_SHOWN 64

/* Sizes of tables in records. */
#define LAVUTREMO_MOST_NAMES 64
#define LAVUTREMO_MOST_STORED 64 /* of each storage */
#define LAVUTREMO_MOST_SENSITIVE 32
#define LAVUTREMO_MOST_ACCESS 32

#ifdef __cplusplus
extern "C" {
#endif

/*
 * Are these house tables sound?
 *
 * Reads
 *   tables  records as above: 1 to 4,096 bytes
 *
 * Writes nothing. It keeps no pointer and no state between calls, so threads may ask at the same time.
 *
 * Returns 0 if the tables are accepted, else a number alone:
 *   LAVUTREMO_LENGTH   the length is outside the sizes;
 * else the records are judged left to right, each before the next is read, and the first that cannot be taken ends the
 * call with the first of these that applies; a rule that looks at other records looks at earlier ones only:
 *   LAVUTREMO_COMMAND  it is unknown or cut,
 *   LAVUTREMO_OPERAND  an operand has a wrong form: a zero number, a class byte outside 1 to 3, a wrong credential,
 *   LAVUTREMO_CLASS    it breaks a class rule; a name that no 0x11 record before it lists is subject-all,
 *   LAVUTREMO_ORDER    it is out of order, repeated or one too many, or it is the first and not self.
 *
 * The buffer may have any content and any length. The caller sees to the pointer as below.
 */
uint64_t lavutremo_check(const uint8_t *tables, size_t tables_len);

/*
 * Begins a negotiation with another end: as the mediator, who wants the role entity.name proved of the other end, or, with
 * entity and name both zero, as the requester.
 *
 * Reads
 *   tables       as above
 *   other        the other end's entity
 *   entity, name the wanted role, or zeros
 *
 * Writes
 *   negotiation  5,120 bytes: the fresh negotiation, both message counts zero, in layout number 2 as docs/LAYOUT.md
 *                describes; what they held before does not count
 *
 * Returns 0 if the call is accepted, else a number alone, the first of these that applies, and then no byte changes:
 *   LAVUTREMO_LENGTH   a length is outside the sizes,
 *   LAVUTREMO_COMMAND, LAVUTREMO_OPERAND, LAVUTREMO_CLASS, LAVUTREMO_ORDER   the tables, as above,
 *   LAVUTREMO_OPERAND  just one of entity and name is zero,
 *   LAVUTREMO_OTHER    the other end is zero or self.
 *
 * The buffers may have any content and any length. They must not overlap.
 */
uint64_t lavutremo_begin(const uint8_t *tables, size_t tables_len, uint8_t *negotiation, size_t negotiation_len,
                         uint16_t other, uint16_t entity, uint16_t name);

/*
 * Takes a message of the other end.
 *
 * Reads
 *   tables       as above
 *   negotiation  5,120 bytes that a call left
 *   message      commands as above: 1 to 4,096 bytes
 *
 * Writes
 *   negotiation  the one that the commands lead to, the other side's message count one higher, its end judged: 1 success
 *                or 2 failed where the first target is satisfied or failed, 3 stalled where this message and the one before
 *                had no open, edge or mark, else 0
 *   scratch      4,096 bytes: zeros
 *
 * Returns 0 if the message is accepted, else a number alone, the first of these that applies, and then no byte changes, of
 * the scratch neither:
 *   LAVUTREMO_LENGTH   a length is outside the sizes,
 *   LAVUTREMO_COMMAND, LAVUTREMO_OPERAND, LAVUTREMO_CLASS, LAVUTREMO_ORDER   the tables, as above,
 *   LAVUTREMO_DAMAGED  the bytes are not those of a sound negotiation of these tables' house,
 *   LAVUTREMO_ENDED    the negotiation has ended,
 *   LAVUTREMO_TURN     it is our side's turn to send: the mediator sends when the sum of both message counts is even;
 * else the commands are judged left to right, each carried out before the next is read, and the first that cannot be taken
 * ends the call with the first of these that applies:
 *   LAVUTREMO_COMMAND, LAVUTREMO_OPERAND   it is unknown or cut, bytes follow the end or there is no end; a wrong operand
 *                      or state,
 *   LAVUTREMO_CLASS    it breaks a class rule; a name that the tables do not list is subject-all,
 *   LAVUTREMO_OPENING  no node stands, and it is no open; or it is an open, and one stands,
 *   LAVUTREMO_ABSENT   a node that it names does not stand,
 *   LAVUTREMO_PRESENT  the edge has not the form of its kind; the credential, the child or the edge is there already,
 *   LAVUTREMO_UNJUSTIFIED   an implication that the credentials shown so far do not prove, or a linking implication without
 *                      a satisfied solution,
 *   LAVUTREMO_PROCESSED     the sender has processed the node, or the edge's parent,
 *   LAVUTREMO_FULL     a size would be passed.
 *
 * The buffers may have any content and any length. They must not overlap.
 */
uint64_t lavutremo_take(const uint8_t *tables, size_t tables_len, uint8_t *negotiation, size_t negotiation_len,
                        const uint8_t *message, size_t message_len, uint8_t *scratch, size_t scratch_len);

/*
 * Gives our next message to the other end: the moves that the rules ask for, and an end. The mediator's first one opens.
 *
 * Reads
 *   tables       as above
 *   negotiation  5,120 bytes that a call left
 *
 * Writes
 *   negotiation  the one that the commands lead to, our side's message count one higher, its end judged: 1 success or 2
 *                failed where the first target is satisfied or failed, 3 stalled where this message and the one before had
 *                no open, edge or mark, 4 full where the next move would pass a size, else 0
 *   reply        4,096 bytes or more: the message at their start; those behind it stay as they are
 *   scratch      4,096 bytes: zeros
 *
 * Returns 256 times the message's length if the call is accepted; lavutremo_length gives it. A refused call returns its
 * number alone, the first of these that applies, and then no byte changes, of the reply and the scratch neither:
 *   LAVUTREMO_LENGTH   a length is outside the sizes,
 *   LAVUTREMO_COMMAND, LAVUTREMO_OPERAND, LAVUTREMO_CLASS, LAVUTREMO_ORDER   the tables, as above,
 *   LAVUTREMO_DAMAGED  the bytes are not those of a sound negotiation of these tables' house,
 *   LAVUTREMO_ENDED    the negotiation has ended,
 *   LAVUTREMO_TURN     it is the other side's turn to send.
 *
 * The buffers may have any content and any length. They must not overlap.
 */
uint64_t lavutremo_reply(const uint8_t *tables, size_t tables_len, uint8_t *negotiation, size_t negotiation_len,
                         uint8_t *reply, size_t reply_len, uint8_t *scratch, size_t scratch_len);

/*
 * How does a negotiation stand, and one of its nodes?
 *
 * Reads
 *   tables       as above
 *   negotiation  5,120 bytes that a call left
 *   node         the number of a node, from zero
 *
 * Writes nothing. It keeps no pointer and no state between calls, so threads may ask at the same time.
 *
 * Returns 256 times the value if the call is accepted; lavutremo_state and the accessors behind it take the value apart.
 * From its lowest bit it has: state 2 bits, propagated state 2, end 3, nodes 8, edges 9, shown 7, messages of the mediator
 * 10, of the requester 10.
 * A refused call returns its number alone, the first of these that applies:
 *   LAVUTREMO_LENGTH   a length is outside the sizes,
 *   LAVUTREMO_COMMAND, LAVUTREMO_OPERAND, LAVUTREMO_CLASS, LAVUTREMO_ORDER   the tables, as above,
 *   LAVUTREMO_DAMAGED  the bytes are not those of a sound negotiation of these tables' house,
 *   LAVUTREMO_ABSENT   there is no such node.
 *
 * The buffers may have any content and any length. They may overlap.
 */
uint64_t lavutremo_report(const uint8_t *tables, size_t tables_len, const uint8_t *negotiation, size_t negotiation_len,
                          uint8_t node);

/*
 * Does "f from e" hold in RT0 over these credentials? Where e is an entity: is e a member of f?
 *
 * Reads
 *   credentials  up to 64 credential commands, repeats allowed, and an end: 1 to 1,473 bytes
 *   f, e         an expression of kind 1 to 4 each: 18 bytes
 *
 * Writes nothing. It keeps no pointer and no state between calls, so threads may ask at the same time.
 *
 * Returns 256 times the value plus the number. An accepted call has number 0, and its value is 1 for yes, 0 for no.
 * A refused call returns its number alone, the first of these that applies:
 *   LAVUTREMO_LENGTH   one of the three lengths is outside the sizes above
 *   LAVUTREMO_COMMAND  commands are judged left to right, and the first that cannot be taken ends the call: with this
 *                      number if it is unknown or cut, if the end is missing, or if bytes follow the end,
 *   LAVUTREMO_OPERAND  with this one if its operands have a wrong form;
 *   LAVUTREMO_OPERAND  f, or then e, has a wrong form or is of another kind.
 *
 * The buffers may have any content and any length: every call is answered. The caller sees to it that no pointer is
 * null, that each leads to as many readable bytes as the length after it says, and that nothing changes them during
 * the call. They may overlap.
 */
uint64_t lavutremo_question(const uint8_t *credentials, size_t credentials_len, const uint8_t *f, size_t f_len,
                            const uint8_t *e, size_t e_len);

/* The number of an answer: 0 if the call was accepted, else why it was refused. */
static inline unsigned lavutremo_number(uint64_t answer)
{
    return (unsigned)(answer & 255u);
}

/* The value of an answer. */
static inline uint64_t lavutremo_value(uint64_t answer)
{
    return answer >> 8;
}

/* The length in bytes of the message that an accepted reply gave. */
static inline size_t lavutremo_length(uint64_t answer)
{
    return (size_t)(answer >> 8);
}

/* The numbers of an accepted report. The node's state byte: bit 0 verifier-processed, bit 1 opponent-processed. */
static inline unsigned lavutremo_state(uint64_t answer)
{
    return (unsigned)(answer >> 8 & 3u);
}

/* Its propagated state: 0 unknown or incomplete, 1 satisfied or complete, 2 failed. */
static inline unsigned lavutremo_propagated(uint64_t answer)
{
    return (unsigned)(answer >> 10 & 3u);
}

/* The end: 0 none, 1 success, 2 failed, 3 stalled, 4 full. */
static inline unsigned lavutremo_end(uint64_t answer)
{
    return (unsigned)(answer >> 12 & 7u);
}

/* How many nodes, edges and credentials shown there are. */
static inline unsigned lavutremo_nodes(uint64_t answer)
{
    return (unsigned)(answer >> 15 & 255u);
}

static inline unsigned lavutremo_edges(uint64_t answer)
{
    return (unsigned)(answer >> 23 & 511u);
}

static inline unsigned lavutremo_shown(uint64_t answer)
{
    return (unsigned)(answer >> 32 & 127u);
}

/*
 * How many messages of the mediator and of the requester there were: those of our side are the replies given, those of the
 * other side the messages accepted. They are as many, or the mediator's are one more.
 */
static inline unsigned lavutremo_mediator_messages(uint64_t answer)
{
    return (unsigned)(answer >> 39 & 1023u);
}

static inline unsigned lavutremo_requester_messages(uint64_t answer)
{
    return (unsigned)(answer >> 49 & 1023u);
}

/* How many messages were accepted and replies given together: the sum of both. */
static inline unsigned lavutremo_messages(uint64_t answer)
{
    return lavutremo_mediator_messages(answer) + lavutremo_requester_messages(answer);
}

#ifdef __cplusplus
}
#endif

#endif
