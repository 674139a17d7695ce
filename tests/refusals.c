/*
 * Refusals, most of them at the exact lengths. Prints each answer that is not the expected one, and counts last.
 */
#include <stdio.h>
#include <string.h>

#include "lavutremo.h"

#define MOST LAVUTREMO_MOST_CREDENTIALS_BYTES
#define YES 256u
#define NO 0u

/* Expressions of one-byte numbers. */
#define ENTITY(entity) 1, 0, 0, entity, 0, 0, 0, 0, 0, 0, 0, 0, 0, 0, 0, 0, 0, 0
#define ROLE(entity, name) 2, 0, 0, entity, 0, name, 0, 0, 0, 0, 0, 0, 0, 0, 0, 0, 0, 0
#define LINKED(entity, first, second) 3, 0, 0, entity, 0, first, 0, second, 0, 0, 0, 0, 0, 0, 0, 0, 0, 0
#define BOTH(a, name, b, other) 4, 2, 0, a, 0, name, 0, b, 0, other, 0, 0, 0, 0, 0, 0, 0, 0
#define GOAL(name) 5, 0, 0, name, 0, 0, 0, 0, 0, 0, 0, 0, 0, 0, 0, 0, 0, 0

/* 1.1 <- 2, as a command. */
static const uint8_t credential[LAVUTREMO_CREDENTIAL_BYTES] = {0x01, 0, 1, 0, 1, 1, 0, 0, 2};
/* The role 1.1, the entity 2 and the goal 1; one byte more than an expression has. */
static const uint8_t role[19] = {2, 0, 0, 1, 0, 1};
static const uint8_t entity[19] = {1, 0, 0, 2};
static const uint8_t goal[19] = {5, 0, 0, 1};
static const uint8_t zero[19] = {0};

static uint8_t credentials[MOST + 1];
static uint8_t tables[LAVUTREMO_MOST_TABLES_BYTES + 1];
static size_t tables_len;
static int passed, failed;

static void expect(const char *what, uint64_t expected, size_t credentials_len, const uint8_t *f, size_t f_len,
                   const uint8_t *e, size_t e_len)
{
    uint8_t before[sizeof credentials];
    memcpy(before, credentials, sizeof before);
    uint64_t answer = lavutremo_question(credentials, credentials_len, f, f_len, e, e_len);
    if (answer == expected && memcmp(before, credentials, sizeof before) == 0) {
        passed++;
        return;
    }
    failed++;
    printf("%s: answer %llu, expected %llu\n", what, (unsigned long long)answer, (unsigned long long)expected);
}

/* Fills the buffer with this many credentials and an end. */
static void fill(size_t count)
{
    memset(credentials, 0, sizeof credentials);
    for (size_t i = 0; i < count; i++)
        memcpy(credentials + i * sizeof credential, credential, sizeof credential);
    credentials[count * sizeof credential] = 0x06;
}

static void lengths(void)
{
    fill(0);
    expect("no bytes", LAVUTREMO_LENGTH, 0, role, 18, entity, 18);
    expect("an end alone", NO, 1, role, 18, entity, 18);
    expect("an end alone, f from f", YES, 1, role, 18, role, 18);
    expect("f of 0 bytes", LAVUTREMO_LENGTH, 1, role, 0, entity, 18);
    expect("f of 17 bytes", LAVUTREMO_LENGTH, 1, role, 17, entity, 18);
    expect("f of 19 bytes", LAVUTREMO_LENGTH, 1, role, 19, entity, 18);
    expect("e of 0 bytes", LAVUTREMO_LENGTH, 1, role, 18, entity, 0);
    expect("e of 17 bytes", LAVUTREMO_LENGTH, 1, role, 18, entity, 17);
    expect("e of 19 bytes", LAVUTREMO_LENGTH, 1, role, 18, entity, 19);
    fill(64);
    expect("1,473 bytes", YES, MOST, role, 18, entity, 18);
    expect("1,472 bytes, no end", LAVUTREMO_COMMAND, MOST - 1, role, 18, entity, 18);
    expect("1,474 bytes", LAVUTREMO_LENGTH, MOST + 1, role, 18, entity, 18);
    credentials[MOST - 1] = 0x01;
    expect("1,473 bytes, the 65th credential cut", LAVUTREMO_COMMAND, MOST, role, 18, entity, 18);
}

static void commands(void)
{
    fill(1);
    expect("one credential", YES, 24, role, 18, entity, 18);
    expect("the end missing", LAVUTREMO_COMMAND, 23, role, 18, entity, 18);
    expect("a cut credential", LAVUTREMO_COMMAND, 22, role, 18, entity, 18);
    expect("a byte after the end", LAVUTREMO_COMMAND, 25, role, 18, entity, 18);
    for (int first = 0; first < 256; first++) {
        fill(1);
        credentials[23] = (uint8_t)first;
        expect("a command of one byte", first == 0x06 ? YES : LAVUTREMO_COMMAND, 24, role, 18, entity, 18);
    }
}

static void order(void)
{
    fill(2);
    credentials[2] = 0;
    expect("an issuer of zero", LAVUTREMO_OPERAND, 47, role, 18, entity, 18);
    expect("an issuer of zero in a cut credential", LAVUTREMO_COMMAND, 22, role, 18, entity, 18);
    expect("an issuer of zero before a cut credential", LAVUTREMO_OPERAND, 45, role, 18, entity, 18);
    expect("an issuer of zero, and f of 17 bytes", LAVUTREMO_LENGTH, 47, role, 17, entity, 18);
    fill(2);
    credentials[25] = 0;
    credentials[0] = 0x02;
    expect("an unknown command before an issuer of zero", LAVUTREMO_COMMAND, 47, role, 18, entity, 18);
    expect("an unknown command, and f of wrong form", LAVUTREMO_COMMAND, 47, zero, 18, entity, 18);
    fill(0);
    expect("f of wrong form", LAVUTREMO_OPERAND, 1, zero, 18, entity, 18);
    expect("e of wrong form", LAVUTREMO_OPERAND, 1, role, 18, zero, 18);
    expect("f a goal", LAVUTREMO_OPERAND, 1, goal, 18, entity, 18);
    expect("e a goal", LAVUTREMO_OPERAND, 1, role, 18, goal, 18);
    expect("f of wrong form, and e of 19 bytes", LAVUTREMO_LENGTH, 1, zero, 18, entity, 19);
}

static void expect_tables(const char *what, uint64_t expected, size_t len)
{
    uint8_t before[sizeof tables];
    memcpy(before, tables, sizeof before);
    uint64_t answer = lavutremo_check(tables, len);
    if (answer == expected && memcmp(before, tables, sizeof before) == 0) {
        passed++;
        return;
    }
    failed++;
    printf("%s: answer %llu, expected %llu\n", what, (unsigned long long)answer, (unsigned long long)expected);
}

static void put(const uint8_t *record, size_t size)
{
    memcpy(tables + tables_len, record, size);
    tables_len += size;
}

static void put_self(void)
{
    tables_len = 0;
    put((const uint8_t[]){0x10, 0, 2}, 3);
}

static void put_name(unsigned name, unsigned class)
{
    put((const uint8_t[]){0x11, (uint8_t)(name >> 8), (uint8_t)name, (uint8_t)class}, 4);
}

/* issuer.3 <- 2, subject-stored. */
static void put_stored(unsigned issuer)
{
    put((const uint8_t[23]){0x13, (uint8_t)(issuer >> 8), (uint8_t)issuer, 0, 3, 1, 0, 0, 2}, 23);
}

/* A pair for the role issuer.3, its other role 1.2. */
static void put_pair(unsigned command, unsigned issuer)
{
    put((const uint8_t[]){(uint8_t)command, (uint8_t)(issuer >> 8), (uint8_t)issuer, 0, 3, 0, 1, 0, 2}, 9);
}

/* The House of marked case (i), with an AC record: names 1, 2, 3 of classes 1, 3, 3; 4.3 <- 2; 4.3 sensitive, Ack 1.2,
 * AC 1.2. */
static void put_house(void)
{
    put_self();
    put_name(1, 1);
    put_name(2, 3);
    put_name(3, 3);
    put_stored(4);
    put_pair(0x14, 4);
    put_pair(0x15, 4);
}

static void table_records(void)
{
    put_house();
    expect_tables("the House", 0, tables_len);
    expect_tables("no bytes", LAVUTREMO_LENGTH, 0);
    expect_tables("4,097 bytes", LAVUTREMO_LENGTH, sizeof tables);
    expect_tables("a cut record", LAVUTREMO_COMMAND, tables_len - 1);
    expect_tables("without the AC record", 0, tables_len - 9);
    tables[tables_len - 9] = 0x16;
    expect_tables("an unknown record", LAVUTREMO_COMMAND, tables_len);
    put_house();
    tables[6] = 4;
    expect_tables("class 4", LAVUTREMO_OPERAND, tables_len);
    put_house();
    tables[15 + 4] = 9;
    expect_tables("a credential of an unlisted name", 0, tables_len - 9);
    expect_tables("an AC record without its direct credential", LAVUTREMO_CLASS, tables_len);
    put_house();
    tables[15] = 0x12;
    expect_tables("subject-all in 0x12", LAVUTREMO_CLASS, tables_len);
    put_self();
    expect_tables("self alone", 0, tables_len);
    put((const uint8_t[]){0x10, 0, 2}, 3);
    expect_tables("self twice", LAVUTREMO_ORDER, tables_len);
    tables_len = 0;
    put_name(1, 1);
    expect_tables("self missing", LAVUTREMO_ORDER, tables_len);
}

/* Records of one-byte numbers. */
#define SELF 0x10, 0, 2
#define NAME(name, class) 0x11, 0, name, class
#define ISSUED(issuer, name, ...) 0x12, 0, issuer, 0, name, __VA_ARGS__
#define STORED(issuer, name, ...) 0x13, 0, issuer, 0, name, __VA_ARGS__
#define PAIR(command, entity, name, other, other_name) command, 0, entity, 0, name, 0, other, 0, other_name

#define EXPECT_RECORDS(what, expected, ...) \
    expect_records(what, expected, (const uint8_t[]){__VA_ARGS__}, sizeof((const uint8_t[]){__VA_ARGS__}))

static void expect_records(const char *what, uint64_t expected, const uint8_t *records, size_t size)
{
    tables_len = 0;
    put(records, size);
    expect_tables(what, expected, tables_len);
}

/* A name that no 0x11 record lists is subject-all. */
static void unlisted_names(void)
{
    EXPECT_RECORDS("a stored entity", 0, SELF, STORED(4, 3, ENTITY(2)));
    EXPECT_RECORDS("a stored role", 0, SELF, STORED(4, 3, ROLE(5, 9)));
    EXPECT_RECORDS("a stored linked role", 0, SELF, STORED(4, 3, LINKED(4, 8, 9)));
    EXPECT_RECORDS("a stored intersection", 0, SELF, STORED(4, 3, BOTH(4, 9, 5, 8)));
    EXPECT_RECORDS("a listed second name", 0, SELF, NAME(9, 3), STORED(4, 3, LINKED(4, 8, 9)));
    EXPECT_RECORDS("a listed head", 0, SELF, NAME(3, 3), STORED(4, 3, BOTH(4, 3, 4, 9)));
    EXPECT_RECORDS("a sensitive role with Ack and AC roles", 0, SELF, STORED(4, 3, ENTITY(2)), PAIR(0x14, 4, 3, 1, 2),
                   PAIR(0x15, 4, 3, 5, 7));
    EXPECT_RECORDS("Ack and AC roles of class 1", 0, SELF, NAME(1, 1), STORED(4, 3, ENTITY(2)), PAIR(0x14, 4, 3, 1, 1),
                   PAIR(0x15, 4, 3, 5, 1));
    EXPECT_RECORDS("a body below class 1", 0, SELF, NAME(1, 1), ISSUED(2, 1, ROLE(4, 9)));
    EXPECT_RECORDS("class 1 before it", 0, SELF, NAME(1, 1), ISSUED(2, 1, LINKED(2, 1, 9)));
    EXPECT_RECORDS("class 2 before it", 0, SELF, NAME(1, 1), NAME(2, 2), ISSUED(2, 1, LINKED(2, 2, 9)));
    EXPECT_RECORDS("an entity below class 2", 0, SELF, NAME(2, 2), ISSUED(2, 2, ENTITY(4)));

    EXPECT_RECORDS("a head of 0x12", LAVUTREMO_CLASS, SELF, ISSUED(2, 9, ENTITY(4)));
    EXPECT_RECORDS("a head of 0x12 beside class 1", LAVUTREMO_CLASS, SELF, NAME(1, 1), ISSUED(2, 9, ROLE(4, 1)));
    EXPECT_RECORDS("a head of 0x12 listed later", LAVUTREMO_CLASS, SELF, ISSUED(2, 1, ENTITY(4)), NAME(1, 1));
    EXPECT_RECORDS("a body below class 2", LAVUTREMO_CLASS, SELF, NAME(2, 2), ISSUED(2, 2, ROLE(4, 9)));
    EXPECT_RECORDS("a linked body below class 2", LAVUTREMO_CLASS, SELF, NAME(2, 2), ISSUED(2, 2, LINKED(2, 2, 9)));
    EXPECT_RECORDS("ill-typed, class 1 behind it", LAVUTREMO_CLASS, SELF, NAME(1, 1), ISSUED(2, 1, LINKED(2, 9, 1)));
    EXPECT_RECORDS("ill-typed, class 2 behind it", LAVUTREMO_CLASS, SELF, NAME(1, 1), NAME(2, 2),
                   ISSUED(2, 1, LINKED(2, 9, 2)));
    EXPECT_RECORDS("ill-typed below it", LAVUTREMO_CLASS, SELF, NAME(1, 1), STORED(4, 9, LINKED(4, 9, 1)));
    EXPECT_RECORDS("a body of class 1 below it", LAVUTREMO_CLASS, SELF, NAME(1, 1), STORED(4, 9, ROLE(5, 1)));
    EXPECT_RECORDS("a part of class 2 below it", LAVUTREMO_CLASS, SELF, NAME(2, 2), STORED(4, 9, BOTH(4, 9, 5, 2)));
    EXPECT_RECORDS("an AC record without a direct credential", LAVUTREMO_CLASS, SELF, PAIR(0x14, 4, 9, 1, 2),
                   PAIR(0x15, 4, 9, 1, 2));
    EXPECT_RECORDS("an AC record of a role that is not sensitive", LAVUTREMO_CLASS, SELF, STORED(4, 9, ENTITY(2)),
                   PAIR(0x15, 4, 9, 1, 2));
    EXPECT_RECORDS("listed after its credential", LAVUTREMO_ORDER, SELF, STORED(4, 3, ENTITY(2)), NAME(3, 1));
    EXPECT_RECORDS("credentials out of order", LAVUTREMO_ORDER, SELF, STORED(4, 9, ENTITY(2)), STORED(4, 8, ENTITY(2)));
}

/* A first record other than self is judged by its own rules first, no name being listed. */
static void self_missing(void)
{
    EXPECT_RECORDS("0x11 first", LAVUTREMO_ORDER, NAME(1, 1), SELF);
    EXPECT_RECORDS("0x12 first", LAVUTREMO_CLASS, ISSUED(2, 1, ENTITY(4)), SELF);
    EXPECT_RECORDS("0x13 first", LAVUTREMO_ORDER, STORED(4, 3, ENTITY(2)), SELF);
    EXPECT_RECORDS("0x14 first", LAVUTREMO_ORDER, PAIR(0x14, 4, 3, 1, 2), SELF);
    EXPECT_RECORDS("0x15 first", LAVUTREMO_CLASS, PAIR(0x15, 4, 3, 1, 2), SELF);
    EXPECT_RECORDS("0x12 alone", LAVUTREMO_CLASS, ISSUED(2, 1, LINKED(2, 1, 1)));
    EXPECT_RECORDS("0x13 alone", LAVUTREMO_ORDER, STORED(4, 3, LINKED(4, 1, 1)));
    EXPECT_RECORDS("0x12 first, of wrong form", LAVUTREMO_OPERAND, ISSUED(2, 0, ENTITY(4)), SELF);
    EXPECT_RECORDS("0x15 first, of wrong form", LAVUTREMO_OPERAND, PAIR(0x15, 4, 3, 1, 0), SELF);
}

static void table_sizes(void)
{
    put_self();
    for (unsigned name = 1; name <= LAVUTREMO_MOST_NAMES; name++)
        put_name(name, 3);
    expect_tables("64 names", 0, tables_len);
    put_name(65, 3);
    expect_tables("65 names", LAVUTREMO_ORDER, tables_len);
    tables_len -= 4;
    for (unsigned issuer = 1; issuer <= LAVUTREMO_MOST_STORED; issuer++)
        put_stored(issuer);
    expect_tables("64 credentials", 0, tables_len);
    put_stored(65);
    expect_tables("65 credentials", LAVUTREMO_ORDER, tables_len);
    tables_len -= 23;
    for (unsigned issuer = 1; issuer <= LAVUTREMO_MOST_SENSITIVE; issuer++)
        put_pair(0x14, issuer);
    expect_tables("32 sensitive roles", 0, tables_len);
    put_pair(0x14, 33);
    expect_tables("33 sensitive roles", LAVUTREMO_ORDER, tables_len);
    tables_len -= 9;
    for (unsigned issuer = 1; issuer <= LAVUTREMO_MOST_ACCESS; issuer++)
        put_pair(0x15, issuer);
    expect_tables("32 AC records", 0, tables_len);
    put_pair(0x15, 33);
    expect_tables("an AC record of a role that is not sensitive", LAVUTREMO_CLASS, tables_len);
    put_self();
    for (unsigned name = 1; name <= LAVUTREMO_MOST_STORED; name++)
        put((const uint8_t[23]){STORED(4, (uint8_t)name, BOTH(4, (uint8_t)(name + 64), 5, (uint8_t)(name + 128)))}, 23);
    expect_tables("192 names, none of them listed", 0, tables_len);
}

/* Begins with these arguments; the negotiation must hold the fresh one, or what it held before. */
static void expect_begin(const char *what, uint64_t expected, size_t tables_size, size_t size, uint16_t other,
                         uint16_t wanted_entity, uint16_t wanted_name)
{
    static uint8_t negotiation[LAVUTREMO_NEGOTIATION_BYTES + 1], after[LAVUTREMO_NEGOTIATION_BYTES + 1];
    memset(negotiation, 0xa5, sizeof negotiation);
    memcpy(after, negotiation, sizeof after);
    if (expected == 0) {
        const uint8_t header[20] = {2,
                                    wanted_entity == 0,
                                    0,
                                    2,
                                    (uint8_t)(other >> 8),
                                    (uint8_t)other,
                                    (uint8_t)(wanted_entity >> 8),
                                    (uint8_t)wanted_entity,
                                    (uint8_t)(wanted_name >> 8),
                                    (uint8_t)wanted_name};
        memset(after, 0, LAVUTREMO_NEGOTIATION_BYTES);
        memcpy(after, header, sizeof header);
    }
    uint64_t answer = lavutremo_begin(tables, tables_size, negotiation, size, other, wanted_entity, wanted_name);
    if (answer == expected && memcmp(negotiation, after, sizeof after) == 0) {
        passed++;
        return;
    }
    failed++;
    printf("%s: answer %llu, expected %llu, or other bytes\n", what, (unsigned long long)answer,
           (unsigned long long)expected);
}

static void begins(void)
{
    put_house();
    const size_t size = LAVUTREMO_NEGOTIATION_BYTES;
    expect_begin("a requester", 0, tables_len, size, 3, 0, 0);
    expect_begin("a mediator", 0, tables_len, size, 3, 300, 1);
    expect_begin("5,119 bytes", LAVUTREMO_LENGTH, tables_len, size - 1, 3, 0, 0);
    expect_begin("5,121 bytes", LAVUTREMO_LENGTH, tables_len, size + 1, 3, 0, 0);
    expect_begin("tables of no bytes", LAVUTREMO_LENGTH, 0, size, 3, 0, 0);
    expect_begin("cut tables, and one zero", LAVUTREMO_COMMAND, tables_len - 1, size, 3, 1, 0);
    expect_begin("an entity of zero", LAVUTREMO_OPERAND, tables_len, size, 3, 0, 1);
    expect_begin("a name of zero, and no other end", LAVUTREMO_OPERAND, tables_len, size, 0, 1, 0);
    expect_begin("no other end", LAVUTREMO_OTHER, tables_len, size, 0, 1, 1);
    expect_begin("self as the other end", LAVUTREMO_OTHER, tables_len, size, 2, 0, 0);
    expect_begin("an unlisted name", 0, tables_len, size, 3, 300, 9);
    expect_begin("an unlisted name, and no other end", LAVUTREMO_OTHER, tables_len, size, 0, 1, 9);
    expect_begin("an unlisted name, and self as the other end", LAVUTREMO_OTHER, tables_len, size, 2, 1, 9);
    put_self();
    expect_begin("no name listed", 0, tables_len, size, 3, 300, 65535);
}

/* Asks for a report; no byte of the negotiation may change. */
static uint64_t expect_report(const char *what, uint64_t expected, size_t tables_size, const uint8_t *negotiation,
                              size_t size, uint8_t node)
{
    static uint8_t before[LAVUTREMO_NEGOTIATION_BYTES + 1];
    memcpy(before, negotiation, size);
    uint64_t answer = lavutremo_report(tables, tables_size, negotiation, size, node);
    if (answer == expected && memcmp(negotiation, before, size) == 0) {
        passed++;
        return answer;
    }
    failed++;
    printf("%s: answer %llu, expected %llu, or other bytes\n", what, (unsigned long long)answer,
           (unsigned long long)expected);
    return answer;
}

/* One node, the role 300.name wanted of entity 3, in state 3: failed, after one message of the mediator. */
static void put_primary_of(uint8_t *negotiation, uint8_t name)
{
    const uint8_t node[22] = {2, 0, 300 >> 8, 300 & 255, 0, name, [18] = 0, 3, 0, 3};
    lavutremo_begin(tables, tables_len, negotiation, LAVUTREMO_NEGOTIATION_BYTES, 3, 300, name);
    memcpy(negotiation + 128, node, sizeof node);
    negotiation[10] = 2;
    negotiation[13] = 1;
    negotiation[16] = 1;
}

static void put_primary(uint8_t *negotiation)
{
    put_primary_of(negotiation, 1);
}

/* The one credential shown: the 22 bytes after a command's first. */
static void put_shown(uint8_t *negotiation, const uint8_t *operands)
{
    memcpy(negotiation + 3712, operands, LAVUTREMO_CREDENTIAL_BYTES - 1);
    negotiation[19] = 1;
}

static void reports(void)
{
    static uint8_t n[LAVUTREMO_NEGOTIATION_BYTES + 1];
    const size_t size = LAVUTREMO_NEGOTIATION_BYTES;
    put_house();
    lavutremo_begin(tables, tables_len, n, size, 3, 300, 1);
    expect_report("a fresh negotiation has no node", LAVUTREMO_ABSENT, tables_len, n, size, 0);
    expect_report("5,119 bytes", LAVUTREMO_LENGTH, tables_len, n, size - 1, 0);
    expect_report("5,121 bytes", LAVUTREMO_LENGTH, tables_len, n, size + 1, 0);
    expect_report("tables of no bytes", LAVUTREMO_LENGTH, 0, n, size, 0);
    expect_report("cut tables", LAVUTREMO_COMMAND, tables_len - 1, n, size, 0);
    put_primary(n);
    const uint64_t value = 3 | 2 << 2 | 2 << 4 | 1 << 7, one = 1;
    uint64_t answer = expect_report("a failed primary", (value | one << 31) << 8, tables_len, n, size, 0);
    if (lavutremo_state(answer) == 3 && lavutremo_propagated(answer) == 2 && lavutremo_end(answer) == 2 &&
        lavutremo_nodes(answer) == 1 && lavutremo_edges(answer) == 0 && lavutremo_shown(answer) == 0 &&
        lavutremo_mediator_messages(answer) == 1 && lavutremo_requester_messages(answer) == 0 &&
        lavutremo_messages(answer) == 1)
        passed++;
    else
        failed++;
    expect_report("node 1 is absent", LAVUTREMO_ABSENT, tables_len, n, size, 1);
    expect_report("node 255 is absent", LAVUTREMO_ABSENT, tables_len, n, size, 255);
    n[15] = 1;
    expect_report("one message of each", (value | one << 31 | one << 41) << 8, tables_len, n, size, 0);
    memcpy(n + 12, (const uint8_t[]){514 >> 8, 514 & 255, 513 >> 8, 513 & 255}, 4);
    expect_report("514 and 513", (value | 514 * one << 31 | 513 * one << 41) << 8, tables_len, n, size, 0);
    put_primary_of(n, 9);
    expect_report("a primary of an unlisted name", (value | one << 31) << 8, tables_len, n, size, 0);
    put_shown(n, (const uint8_t[]){0, 4, 0, 9, ROLE(5, 8)});
    expect_report("a credential of unlisted names", (value | one << 24 | one << 31) << 8, tables_len, n, size, 0);
    put_shown(n, (const uint8_t[]){0, 4, 0, 9, LINKED(4, 8, 9)});
    expect_report("an unlisted linked role", (value | one << 24 | one << 31) << 8, tables_len, n, size, 0);
    put_shown(n, (const uint8_t[]){0, 4, 0, 1, LINKED(4, 1, 9)});
    expect_report("class 1 and an unlisted name", (value | one << 24 | one << 31) << 8, tables_len, n, size, 0);
    put_shown(n, (const uint8_t[]){0, 4, 0, 9, ROLE(5, 1)});
    expect_report("an unlisted head, a body of class 1", LAVUTREMO_DAMAGED, tables_len, n, size, 0);
    put_shown(n, (const uint8_t[]){0, 4, 0, 1, LINKED(4, 9, 1)});
    expect_report("ill-typed by an unlisted name", LAVUTREMO_DAMAGED, tables_len, n, size, 0);
}

/* Each of these bytes, changed alone, damages a negotiation. */
static void damaged_bytes(void)
{
    static uint8_t n[LAVUTREMO_NEGOTIATION_BYTES];
    static const struct {
        const char *what;
        size_t at;
        uint8_t value;
    } damage[] = {{"layout 1", 0, 1},
                  {"layout 3", 0, 3},
                  {"a third side", 1, 2},
                  {"another self", 3, 9},
                  {"other end is self", 5, 2},
                  {"another wanted role", 9, 2},
                  {"no end, though failed", 10, 0},
                  {"idle and failed", 11, 1},
                  {"1,281 messages of the mediator", 12, 5},
                  {"no message", 13, 0},
                  {"two of the mediator alone", 13, 2},
                  {"256 of the requester", 14, 1},
                  {"two of the requester", 15, 2},
                  {"a node that is not there", 16, 2},
                  {"an edge from nowhere", 18, 1},
                  {"a credential of zeros", 19, 1},
                  {"an unused byte", 20, 1},
                  {"the last of the header", 127, 1},
                  {"an entity for a role", 128, 1},
                  {"another subject", 147, 4},
                  {"another verifier", 148, 1},
                  {"state 4", 149, 4},
                  {"a byte behind the nodes", 150, 1},
                  {"a byte behind the edges", 2944, 1},
                  {"the last byte", 5119, 1}};
    for (size_t i = 0; i < sizeof damage / sizeof damage[0]; i++) {
        put_primary(n);
        n[damage[i].at] = damage[i].value;
        expect_report(damage[i].what, LAVUTREMO_DAMAGED, tables_len, n, sizeof n, 0);
    }
}

static uint8_t taken[LAVUTREMO_NEGOTIATION_BYTES + 1], message[LAVUTREMO_MOST_MESSAGE_BYTES + 1],
    scratch[LAVUTREMO_SCRATCH_BYTES + 1];
static size_t message_len;

static void put_command(const uint8_t *bytes, size_t size)
{
    memcpy(message + message_len, bytes, size);
    message_len += size;
}

#define COMMAND(...) put_command((const uint8_t[]){__VA_ARGS__}, sizeof((const uint8_t[]){__VA_ARGS__}))

/* Takes the message. An accepted one leaves zeros in the scratch, a refused one every byte as it was. */
static void expect_take(const char *what, uint64_t expected, size_t tables_size, size_t size, size_t message_size,
                        size_t scratch_size)
{
    static uint8_t before[sizeof taken], scratch_after[sizeof scratch];
    memset(scratch, 0xa5, sizeof scratch);
    memset(scratch_after, 0xa5, sizeof scratch_after);
    if (expected == 0)
        memset(scratch_after, 0, LAVUTREMO_SCRATCH_BYTES);
    memcpy(before, taken, sizeof before);
    uint64_t answer = lavutremo_take(tables, tables_size, taken, size, message, message_size, scratch, scratch_size);
    int same = memcmp(taken, before, sizeof before) == 0;
    if (answer == expected && memcmp(scratch, scratch_after, sizeof scratch) == 0 && same == (expected != 0)) {
        passed++;
        return;
    }
    failed++;
    printf("%s: answer %llu, expected %llu, or other bytes\n", what, (unsigned long long)answer,
           (unsigned long long)expected);
}

static void expect_message(const char *what, uint64_t expected)
{
    expect_take(what, expected, tables_len, LAVUTREMO_NEGOTIATION_BYTES, message_len, LAVUTREMO_SCRATCH_BYTES);
}

/* A requester that has seen no message, or one with an open of 3.1 in state 2. */
static void put_requester(int opened)
{
    put_house();
    lavutremo_begin(tables, tables_len, taken, LAVUTREMO_NEGOTIATION_BYTES, 3, 0, 0);
    message_len = 0;
    if (opened)
        COMMAND(0x02, 0, 3, 0, 1, 2);
}

static void takes(void)
{
    const size_t size = LAVUTREMO_NEGOTIATION_BYTES, scratch_size = LAVUTREMO_SCRATCH_BYTES;
    put_requester(1);
    COMMAND(0x06);
    expect_take("no message", LAVUTREMO_LENGTH, tables_len, size, 0, scratch_size);
    expect_take("4,097 bytes of message", LAVUTREMO_LENGTH, tables_len, size, sizeof message, scratch_size);
    expect_take("4,095 bytes of scratch", LAVUTREMO_LENGTH, tables_len, size, message_len, scratch_size - 1);
    expect_take("4,097 bytes of scratch", LAVUTREMO_LENGTH, tables_len, size, message_len, scratch_size + 1);
    expect_take("5,119 bytes of negotiation", LAVUTREMO_LENGTH, tables_len, size - 1, message_len, scratch_size);
    expect_take("5,121 bytes of negotiation", LAVUTREMO_LENGTH, tables_len, size + 1, message_len, scratch_size);
    expect_take("no tables", LAVUTREMO_LENGTH, 0, size, message_len, scratch_size);
    expect_take("cut tables", LAVUTREMO_COMMAND, tables_len - 1, size, message_len, scratch_size);
    taken[20] = 1;
    expect_message("an unused byte of the negotiation", LAVUTREMO_DAMAGED);
    taken[20] = 0;
    expect_message("an open", 0);
    expect_message("out of turn", LAVUTREMO_TURN);
    put_primary(taken);
    expect_message("already ended", LAVUTREMO_ENDED);

    put_requester(0);
    expect_take("no command", LAVUTREMO_COMMAND, tables_len, size, 1, scratch_size);
    COMMAND(0x06);
    expect_message("an end while no node stands", LAVUTREMO_OPENING);
    static const struct {
        const char *what;
        uint64_t expected;
        uint8_t bytes[25];
        size_t size;
    } after_open[] = {
        {"no end", LAVUTREMO_COMMAND, {0}, 0},
        {"bytes after the end", LAVUTREMO_COMMAND, {0x06, 0x06}, 2},
        {"an unknown command", LAVUTREMO_COMMAND, {0x07, 0x06}, 2},
        {"a cut mark", LAVUTREMO_COMMAND, {0x05}, 1},
        {"a zero in a role", LAVUTREMO_OPERAND, {0x02, 0, 0, 0, 1, 2, 0x06}, 7},
        {"state 4", LAVUTREMO_OPERAND, {0x02, 0, 3, 0, 1, 4, 0x06}, 7},
        {"edge kind 7", LAVUTREMO_OPERAND, {0x04, 7, 0, 0, 0x06}, 5},
        {"a second open, of an unlisted name", LAVUTREMO_OPENING, {0x02, 0, 3, 0, 9, 2, 0x06}, 7},
        {"a class rule broken", LAVUTREMO_CLASS, {0x01, 0, 4, 0, 2, ROLE(3, 1), 0x06}, 24},
        {"an unlisted head, a body of class 1", LAVUTREMO_CLASS, {0x01, 0, 4, 0, 9, ROLE(3, 1), 0x06}, 24},
        {"ill-typed by an unlisted name", LAVUTREMO_CLASS, {0x01, 0, 3, 0, 1, LINKED(3, 9, 1), 0x06}, 24},
        {"a child ill-typed by an unlisted name", LAVUTREMO_CLASS, {0x03, 1, 0, LINKED(3, 9, 1), 0, 2, 1, 0x06}, 25},
        {"a credential of unlisted names", 0, {0x01, 0, 4, 0, 9, ROLE(5, 8), 0x06}, 24},
        {"an unlisted linked role", 0, {0x01, 0, 4, 0, 9, LINKED(4, 8, 7), 0x06}, 24},
        {"an unlisted intersection", 0, {0x01, 0, 4, 0, 2, BOTH(4, 8, 5, 9), 0x06}, 24},
        {"class 1 and an unlisted name", 0, {0x01, 0, 3, 0, 1, LINKED(3, 1, 9), 0x06}, 24},
        {"an unlisted child without credentials", LAVUTREMO_UNJUSTIFIED, {0x03, 1, 0, ROLE(4, 9), 0, 2, 1, 0x06}, 25},
        {"a second open", LAVUTREMO_OPENING, {0x02, 0, 3, 0, 1, 2, 0x06}, 7},
        {"a mark of no node", LAVUTREMO_ABSENT, {0x05, 1, 0x06}, 3},
        {"a node joined to itself", LAVUTREMO_PRESENT, {0x04, 1, 0, 0, 0x06}, 5},
        {"a child of another subject", LAVUTREMO_PRESENT, {0x03, 1, 0, ROLE(4, 2), 0, 9, 1, 0x06}, 25},
        {"a child that stands", LAVUTREMO_PRESENT, {0x03, 1, 0, ROLE(3, 1), 0, 2, 1, 0x06}, 25},
        {"an implication without credentials", LAVUTREMO_UNJUSTIFIED, {0x03, 1, 0, ROLE(4, 2), 0, 2, 1, 0x06}, 25},
    };
    for (size_t i = 0; i < sizeof after_open / sizeof after_open[0]; i++) {
        put_requester(1);
        put_command(after_open[i].bytes, after_open[i].size);
        expect_message(after_open[i].what, after_open[i].expected);
    }

    put_requester(1);
    COMMAND(0x01, 0, 3, 0, 1, ROLE(4, 2));
    COMMAND(0x01, 0, 3, 0, 1, ROLE(4, 2));
    COMMAND(0x06);
    expect_message("a credential twice", LAVUTREMO_PRESENT);
    put_requester(1);
    COMMAND(0x03, 1, 0, ROLE(4, 2), 0, 2, 1);
    COMMAND(0x01, 0, 3, 0, 1, ROLE(4, 2));
    COMMAND(0x06);
    expect_message("credentials that come later", LAVUTREMO_UNJUSTIFIED);
    put_requester(1);
    COMMAND(0x05, 0);
    COMMAND(0x05, 0);
    COMMAND(0x06);
    expect_message("a mark twice", LAVUTREMO_PROCESSED);
    put_requester(1);
    COMMAND(0x01, 0, 3, 0, 1, ROLE(4, 2));
    COMMAND(0x03, 1, 0, ROLE(4, 2), 0, 2, 1);
    COMMAND(0x05, 0);
    COMMAND(0x06);
    expect_message("the first message of case (i)", 0);
    uint64_t answer = lavutremo_report(tables, tables_len, taken, size, 0);
    if (lavutremo_number(answer) == 0 && lavutremo_state(answer) == 3 && lavutremo_propagated(answer) == 0 &&
        lavutremo_end(answer) == 0 && lavutremo_nodes(answer) == 2 && lavutremo_edges(answer) == 1 &&
        lavutremo_shown(answer) == 1 && lavutremo_mediator_messages(answer) == 1 &&
        lavutremo_requester_messages(answer) == 0 && lavutremo_messages(answer) == 1)
        passed++;
    else
        failed++;
}

/* Takes a message that must be accepted, and counts what the negotiation then has. */
static void expect_graph(const char *what, unsigned nodes, unsigned edges, unsigned shown)
{
    expect_message(what, 0);
    uint64_t answer = lavutremo_report(tables, tables_len, taken, LAVUTREMO_NEGOTIATION_BYTES, 0);
    if (lavutremo_number(answer) == 0 && lavutremo_nodes(answer) == nodes && lavutremo_edges(answer) == edges &&
        lavutremo_shown(answer) == shown) {
        passed++;
        return;
    }
    failed++;
    printf("%s: report %llu\n", what, (unsigned long long)answer);
}

/* Messages with names that the tables do not list. */
static void unlisted_messages(void)
{
    put_requester(0);
    COMMAND(0x02, 0, 3, 0, 9, 2);
    COMMAND(0x06);
    expect_graph("an open of an unlisted name", 1, 0, 0);
    put_requester(0);
    COMMAND(0x02, 0, 3, 0, 9, 2);
    COMMAND(0x01, 0, 3, 0, 9, LINKED(3, 8, 7));
    COMMAND(0x03, 1, 0, LINKED(3, 8, 7), 0, 2, 0);
    COMMAND(0x03, 2, 1, GOAL(7), 0, 2, 1);
    COMMAND(0x06);
    expect_graph("an unlisted linked role and its goal", 3, 2, 1);
    put_requester(0);
    put_self();
    lavutremo_begin(tables, tables_len, taken, LAVUTREMO_NEGOTIATION_BYTES, 3, 0, 0);
    COMMAND(0x02, 0, 3, 0, 1, 2);
    COMMAND(0x01, 0, 3, 0, 1, BOTH(4, 3, 5, 2));
    COMMAND(0x03, 1, 0, BOTH(4, 3, 5, 2), 0, 2, 2);
    COMMAND(0x03, 5, 1, ROLE(4, 3), 0, 2, 0);
    COMMAND(0x03, 5, 1, ROLE(5, 2), 0, 2, 0);
    COMMAND(0x06);
    expect_graph("tables that list no name", 4, 3, 1);
}

static void not_four(const char *what, size_t at, unsigned value, uint64_t answer)
{
    if (answer != LAVUTREMO_NAME)
        return;
    failed++;
    printf("%s: 4 with byte %zu being %u\n", what, at, value);
}

/* Each call with these tables, the negotiation and the message; the negotiation is left as it was. */
static void all_calls(size_t at, unsigned value)
{
    static uint8_t fresh[LAVUTREMO_NEGOTIATION_BYTES], kept[sizeof fresh], reply[LAVUTREMO_LEAST_REPLY_BYTES];
    const size_t size = sizeof fresh;
    not_four("check", at, value, lavutremo_check(tables, tables_len));
    not_four("begin", at, value, lavutremo_begin(tables, tables_len, fresh, size, 3, 300, (uint16_t)value));
    not_four("report", at, value, lavutremo_report(tables, tables_len, taken, size, 0));
    memcpy(kept, taken, size);
    not_four("take", at, value,
             lavutremo_take(tables, tables_len, taken, size, message, message_len, scratch, LAVUTREMO_SCRATCH_BYTES));
    not_four("reply", at, value,
             lavutremo_reply(tables, tables_len, taken, size, reply, sizeof reply, scratch, LAVUTREMO_SCRATCH_BYTES));
    memcpy(taken, kept, size);
}

/* No call returns 4 where one of these bytes has another value; counts once. */
static void change_each(uint8_t *bytes, size_t from, size_t to)
{
    const int before_failed = failed;
    for (size_t at = from; at < to; at++) {
        const uint8_t before = bytes[at];
        for (unsigned value = 0; value < 256; value++) {
            bytes[at] = (uint8_t)value;
            all_calls(at, value);
        }
        bytes[at] = before;
    }
    passed += failed == before_failed;
}

/* The same with every byte of the tables and the message, and with those of the negotiation that are in use. */
static void never_four(void)
{
    put_requester(1);
    COMMAND(0x01, 0, 3, 0, 1, LINKED(3, 2, 3));
    COMMAND(0x03, 1, 0, LINKED(3, 2, 3), 0, 2, 0);
    COMMAND(0x06);
    change_each(tables, 0, tables_len);
    change_each(message, 0, message_len);
    expect_message("a linked role", 0);
    change_each(taken, 0, 20);
    change_each(taken, 128, 128 + 2 * 22);
    change_each(taken, 3712, 3712 + 22);
}

int main(void)
{
    lengths();
    commands();
    order();
    table_records();
    unlisted_names();
    self_missing();
    table_sizes();
    begins();
    reports();
    damaged_bytes();
    takes();
    unlisted_messages();
    never_four();
    printf("%d passed, %d failed\n", passed, failed);
    return failed > 0;
}
