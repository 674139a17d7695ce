/*
 * Replies through the C interface: what is refused and in which order, which bytes change, how messages are counted, and
 * that a name that the tables do not list is subject-all. The other end's messages are those of the marked cases.
 */
#include <stdio.h>
#include <string.h>

#include "layout.h"
#include "text.h"

/* The classes of marked case (i), all listed or name 1 alone. */
#define LISTED "class 1 issuer-def\nclass 2 subject-all\nclass 3 subject-all\n"
#define ONE_LISTED "class 1 issuer-def\n"
#define STUDIO(classes) "self 3\n" classes "issued 3.1 <- 4.3\nstored 1.2 <- 3\n"
#define HOUSE(classes) "self 2\n" classes "sensitive 4.3 ack 1.2\n"
#define HELD "stored 4.3 <- 2\n"

#define ROLE(entity, name) 2, 0, 0, entity, 0, name, 0, 0, 0, 0, 0, 0, 0, 0, 0, 0, 0, 0
#define ENTITY(entity) 1, 0, 0, entity, 0, 0, 0, 0, 0, 0, 0, 0, 0, 0, 0, 0, 0, 0

/* The four messages of case (i), and the last of case (j), which has the first three as well. */
static const uint8_t messages[5][56] = {
    {0x02, 0, 3, 0, 1, 2, 0x01, 0, 3, 0, 1, ROLE(4, 3), 0x03, 1, 0, ROLE(4, 3), 0, 2, 1, 0x05, 0, 0x06},
    {0x03, 6, 1, ROLE(1, 2), 0, 3, 1, 0x06},
    {0x01, 0, 1, 0, 2, ENTITY(3), 0x03, 1, 2, ENTITY(3), 0, 3, 3, 0x05, 2, 0x06},
    {0x01, 0, 4, 0, 3, ENTITY(2), 0x03, 1, 1, ENTITY(2), 0, 2, 3, 0x06},
    {0x05, 1, 0x06},
};
static const size_t lengths[5] = {56, 25, 50, 48, 3};

/* After each of them: the messages of the mediator and of the requester. */
static const unsigned counts[5][2] = {{1, 0}, {1, 1}, {2, 1}, {2, 2}, {2, 2}};

/* The buffers of one end, each with room for a length that is too great. */
static struct lent {
    uint8_t tables[LAVUTREMO_MOST_TABLES_BYTES + 1];
    uint8_t negotiation[LAVUTREMO_NEGOTIATION_BYTES + 1];
    uint8_t reply[2 * LAVUTREMO_LEAST_REPLY_BYTES];
    uint8_t scratch[LAVUTREMO_SCRATCH_BYTES + 1];
} lent;
static size_t tables_len;
static int passed, failed;

static void count(const char *what, int right, uint64_t answer)
{
    if (right) {
        passed++;
        return;
    }
    failed++;
    printf("%s: answer %llu, or other bytes\n", what, (unsigned long long)answer);
}

/* Asks for a reply that must be refused; no byte may change. */
static void refused(const char *what, uint64_t number, size_t tables_size, size_t size, size_t reply_size,
                    size_t scratch_size)
{
    static struct lent before;
    memset(lent.reply, 0xa5, sizeof lent.reply);
    memset(lent.scratch, 0x5a, sizeof lent.scratch);
    before = lent;
    uint64_t answer = lavutremo_reply(lent.tables, tables_size, lent.negotiation, size, lent.reply, reply_size,
                                      lent.scratch, scratch_size);
    count(what, answer == number && memcmp(&lent, &before, sizeof lent) == 0, answer);
}

static void refused_now(const char *what, uint64_t number)
{
    refused(what, number, tables_len, LAVUTREMO_NEGOTIATION_BYTES, LAVUTREMO_LEAST_REPLY_BYTES, LAVUTREMO_SCRATCH_BYTES);
}

/* What a report says of the messages: of the mediator, of the requester, and together. */
static void counted(const char *what, unsigned mediator, unsigned requester)
{
    uint64_t answer = lavutremo_report(lent.tables, tables_len, lent.negotiation, LAVUTREMO_NEGOTIATION_BYTES, 0);
    count(what,
          lavutremo_number(answer) == 0 && lavutremo_mediator_messages(answer) == mediator &&
              lavutremo_requester_messages(answer) == requester && lavutremo_messages(answer) == mediator + requester,
          answer);
}

/* Asks for a reply that must be this message; what lies behind it, and the tables, may not change. */
static void given(const char *what, int index, size_t reply_size)
{
    static struct lent due;
    memset(lent.reply, 0xa5, sizeof lent.reply);
    memset(lent.scratch, 0x5a, sizeof lent.scratch);
    due = lent;
    memcpy(due.reply, messages[index], lengths[index]);
    memset(due.scratch, 0, LAVUTREMO_SCRATCH_BYTES);
    uint64_t answer = lavutremo_reply(lent.tables, tables_len, lent.negotiation, LAVUTREMO_NEGOTIATION_BYTES, lent.reply,
                                      reply_size, lent.scratch, LAVUTREMO_SCRATCH_BYTES);
    memcpy(due.negotiation, lent.negotiation, LAVUTREMO_NEGOTIATION_BYTES);
    count(what, answer == 256 * lengths[index] && memcmp(&lent, &due, sizeof lent) == 0, answer);
    counted(what, counts[index][0], counts[index][1]);
}

static void taken(const char *what, int index)
{
    uint64_t answer = lavutremo_take(lent.tables, tables_len, lent.negotiation, LAVUTREMO_NEGOTIATION_BYTES,
                                     messages[index], lengths[index], lent.scratch, LAVUTREMO_SCRATCH_BYTES);
    count(what, answer == 0, answer);
    counted(what, counts[index][0], counts[index][1]);
}

static void begin(const char *text, uint16_t other, uint16_t entity, uint16_t name)
{
    struct text_error error;
    static struct house house;
    memset(&lent, 0, sizeof lent);
    int read = text_to_house(text, strlen(text), &house, &error);
    memcpy(lent.tables, house.bytes, house.length);
    tables_len = house.length;
    uint64_t answer = lavutremo_begin(lent.tables, tables_len, lent.negotiation, LAVUTREMO_NEGOTIATION_BYTES, other,
                                      entity, name);
    count("begin", read && answer == 0, answer);
}

static void begin_studio(void)
{
    begin(STUDIO(LISTED), 2, 3, 1);
}

static void begin_house(void)
{
    begin(HOUSE(LISTED) HELD, 3, 0, 0);
}

static void outside_the_sizes(void)
{
    const size_t size = LAVUTREMO_NEGOTIATION_BYTES, reply = LAVUTREMO_LEAST_REPLY_BYTES, scratch = LAVUTREMO_SCRATCH_BYTES;
    begin_studio();
    refused("no tables", LAVUTREMO_LENGTH, 0, size, reply, scratch);
    refused("4,097 bytes of tables", LAVUTREMO_LENGTH, sizeof lent.tables, size, reply, scratch);
    refused("5,119 bytes of negotiation", LAVUTREMO_LENGTH, tables_len, size - 1, reply, scratch);
    refused("5,121 bytes of negotiation", LAVUTREMO_LENGTH, tables_len, size + 1, reply, scratch);
    refused("no reply buffer", LAVUTREMO_LENGTH, tables_len, size, 0, scratch);
    refused("4,095 bytes for the reply", LAVUTREMO_LENGTH, tables_len, size, reply - 1, scratch);
    refused("4,095 bytes of scratch", LAVUTREMO_LENGTH, tables_len, size, reply, scratch - 1);
    refused("4,097 bytes of scratch", LAVUTREMO_LENGTH, tables_len, size, reply, scratch + 1);
    lent.negotiation[20] = 1;
    refused("a short reply buffer and damage", LAVUTREMO_LENGTH, tables_len, size, reply - 1, scratch);
    refused("cut tables and damage", LAVUTREMO_COMMAND, tables_len - 1, size, reply, scratch);
    refused_now("damage", LAVUTREMO_DAMAGED);
}

/* One byte of sound tables changed: the offset, its new value and the number. Records start at 0, 3, 7, 11, 15, 38. */
static void wrong_tables(void)
{
    static const struct {
        const char *what;
        size_t at;
        uint8_t value;
        uint64_t number;
    } changes[] = {{"an unknown record", 38, 0x16, LAVUTREMO_COMMAND},
                   {"class 4", 6, 4, LAVUTREMO_OPERAND},
                   {"an unlisted head in 0x12", 19, 9, LAVUTREMO_CLASS},
                   {"subject-all in 0x12", 38, 0x12, LAVUTREMO_CLASS},
                   {"a name twice", 9, 1, LAVUTREMO_ORDER},
                   {"another self", 2, 9, LAVUTREMO_DAMAGED}};
    for (size_t i = 0; i < sizeof changes / sizeof changes[0]; i++) {
        begin_studio();
        lent.tables[changes[i].at] = changes[i].value;
        refused_now(changes[i].what, changes[i].number);
    }
}

/* Case (i) from each end, with replies out of turn and after the end. */
static void turns(void)
{
    begin_studio();
    given("the first reply", 0, LAVUTREMO_LEAST_REPLY_BYTES);
    refused_now("the mediator twice", LAVUTREMO_TURN);
    lent.negotiation[5119] = 1;
    refused_now("damage and out of turn", LAVUTREMO_DAMAGED);
    lent.negotiation[5119] = 0;
    taken("the second message", 1);
    given("the third", 2, sizeof lent.reply);
    taken("the fourth", 3);
    refused_now("after success, the mediator's turn", LAVUTREMO_ENDED);

    begin_house();
    refused_now("the requester before the mediator", LAVUTREMO_TURN);
    taken("the first message", 0);
    given("the second", 1, LAVUTREMO_LEAST_REPLY_BYTES + 1);
    refused_now("the requester twice", LAVUTREMO_TURN);
    taken("the third message", 2);
    given("the fourth", 3, LAVUTREMO_LEAST_REPLY_BYTES);
    refused_now("after success, not the requester's turn", LAVUTREMO_ENDED);
}

/* How the negotiation has ended. */
static void ended(const char *what, unsigned end)
{
    uint64_t answer = lavutremo_report(lent.tables, tables_len, lent.negotiation, LAVUTREMO_NEGOTIATION_BYTES, 0);
    count(what, lavutremo_number(answer) == 0 && lavutremo_end(answer) == end, answer);
}

/* Marked case (i), or (j) without the credential, from each end, with these tables: the messages are those above. */
static void marked(const char *what, const char *studio, const char *house, int held)
{
    const int last = held ? 3 : 4;
    const unsigned end = held ? LAVUTREMO_END_SUCCESS : LAVUTREMO_END_FAILED;
    begin(studio, 2, 3, 1);
    given(what, 0, LAVUTREMO_LEAST_REPLY_BYTES);
    taken(what, 1);
    given(what, 2, LAVUTREMO_LEAST_REPLY_BYTES);
    ended(what, LAVUTREMO_END_NONE);
    taken(what, last);
    ended(what, end);
    begin(house, 3, 0, 0);
    taken(what, 0);
    given(what, 1, LAVUTREMO_LEAST_REPLY_BYTES);
    taken(what, 2);
    ended(what, LAVUTREMO_END_NONE);
    given(what, last, LAVUTREMO_LEAST_REPLY_BYTES);
    ended(what, end);
}

/* The marked cases with all names listed, with name 1 alone, and with a House that lists none. */
static void marked_cases(void)
{
    marked("case (i), all names listed", STUDIO(LISTED), HOUSE(LISTED) HELD, 1);
    marked("case (j), all names listed", STUDIO(LISTED), HOUSE(LISTED), 0);
    marked("case (i), name 1 listed", STUDIO(ONE_LISTED), HOUSE(ONE_LISTED) HELD, 1);
    marked("case (j), name 1 listed", STUDIO(ONE_LISTED), HOUSE(ONE_LISTED), 0);
    marked("case (i), no name listed by House", STUDIO(ONE_LISTED), HOUSE("") HELD, 1);
    marked("case (j), no name listed by House", STUDIO(ONE_LISTED), HOUSE(""), 0);
}

/* A whole negotiation between Studio and House: its messages, and whether House's Ack target was satisfied after each. */
#define MOST_RUN 16
struct run {
    uint8_t messages[MOST_RUN][LAVUTREMO_MOST_MESSAGE_BYTES];
    size_t lengths[MOST_RUN];
    int acknowledged[MOST_RUN];
    unsigned count, end;
};

struct side {
    struct house house;
    uint8_t negotiation[LAVUTREMO_NEGOTIATION_BYTES];
};

static uint64_t report_of(const struct side *side, unsigned node)
{
    return lavutremo_report(side->house.bytes, side->house.length, side->negotiation, sizeof side->negotiation,
                            (uint8_t)node);
}

/* Whether the target that House, 2, asks of Studio, 3, for this role stands and is satisfied. */
static int acknowledged(const struct side *house, unsigned entity, unsigned name)
{
    for (unsigned i = 0; i < house->negotiation[NODE_COUNT_AT]; i++) {
        const uint8_t *node = house->negotiation + NODES_AT + NODE_BYTES * i;
        if (node[0] == LAVUTREMO_KIND_ROLE && number_at(node + 2) == entity && number_at(node + 4) == name &&
            number_at(node + NODE_SUBJECT_AT) == 3 && node[NODE_VERIFIER_AT] == 1)
            return lavutremo_propagated(report_of(house, i)) == LAVUTREMO_SATISFIED;
    }
    return 0;
}

static int start(struct side *side, const char *text, uint16_t other, uint16_t entity, uint16_t name)
{
    struct text_error error;
    return text_to_house(text, strlen(text), &side->house, &error) &&
           lavutremo_begin(side->house.bytes, side->house.length, side->negotiation, sizeof side->negotiation, other,
                           entity, name) == 0;
}

/* Carries one message from one end to the other. Returns 1, or 0 if a call refuses. */
static int carry(struct side *from, struct side *to, struct run *run)
{
    static uint8_t scratch[LAVUTREMO_SCRATCH_BYTES];
    uint8_t *message = run->messages[run->count];
    uint64_t answer = lavutremo_reply(from->house.bytes, from->house.length, from->negotiation, sizeof from->negotiation,
                                      message, LAVUTREMO_MOST_MESSAGE_BYTES, scratch, sizeof scratch);
    if (lavutremo_number(answer) != 0)
        return 0;
    run->lengths[run->count] = lavutremo_length(answer);
    return lavutremo_take(to->house.bytes, to->house.length, to->negotiation, sizeof to->negotiation, message,
                          run->lengths[run->count], scratch, sizeof scratch) == 0;
}

/* Runs a negotiation about this role to its end. House's Ack role is 1.901. */
static void play_for(const char *what, const char *studio, const char *house, uint16_t entity, uint16_t name,
                     struct run *run)
{
    static struct side sides[2];
    memset(run, 0, sizeof *run);
    int right = start(&sides[0], studio, 2, entity, name) && start(&sides[1], house, 3, 0, 0);
    while (right && run->end == LAVUTREMO_END_NONE && run->count < MOST_RUN) {
        struct side *from = &sides[run->count % 2], *to = &sides[1 - run->count % 2];
        right = carry(from, to, run);
        run->end = lavutremo_end(report_of(to, 0));
        run->acknowledged[run->count++] = acknowledged(&sides[1], 1, 901);
    }
    count(what, right && run->end != LAVUTREMO_END_NONE, run->count);
}

static void play(const char *what, const char *studio, const char *house, struct run *run)
{
    play_for(what, studio, house, 3, 1, run);
}

static int same_message(const struct run *one, const struct run *other, unsigned i)
{
    return one->lengths[i] == other->lengths[i] && memcmp(one->messages[i], other->messages[i], one->lengths[i]) == 0;
}

static void same_run(const char *what, const struct run *one, const struct run *other)
{
    int same = one->count == other->count && one->end == other->end;
    for (unsigned i = 0; same && i < one->count; i++)
        same = same_message(one, other, i);
    count(what, same, one->count);
}

/* Alike as far as the Ack target is unsatisfied in both; House replied twice before, and otherwise afterwards. */
static void alike_until_acknowledged(const char *what, const struct run *one, const struct run *other)
{
    unsigned i = 0;
    while (i < one->count && i < other->count && same_message(one, other, i) && !one->acknowledged[i] &&
           !other->acknowledged[i])
        i++;
    int satisfied = i + 1 < one->count && i + 1 < other->count && one->acknowledged[i] && other->acknowledged[i];
    count(what, satisfied && i >= 4 && same_message(one, other, i) && !same_message(one, other, i + 1), i);
}

#define LISTED_900 "class 900 subject-all\nclass 901 subject-all\n"
#define PROVING "stored 1.901 <- 3\n"
#define ASKING_FIRST "sensitive 4.900 ack 1.901\n"

/* A wanted role that neither end lists, 4.900, sensitive and held or not: as if it were listed. */
static void wanted(void)
{
    static struct run run, listed;
    play_for("an unlisted role, held", "self 3\n" PROVING, "self 2\nstored 4.900 <- 2\n" ASKING_FIRST, 4, 900, &run);
    count("an unlisted role, held", run.end == LAVUTREMO_END_SUCCESS, run.end);
    play_for("a listed role, held", "self 3\n" LISTED_900 PROVING,
             "self 2\n" LISTED_900 "stored 4.900 <- 2\n" ASKING_FIRST, 4, 900, &listed);
    same_run("a wanted role, held, listed or not", &run, &listed);
    play_for("an unlisted role, not held", "self 3\n" PROVING, "self 2\n" ASKING_FIRST, 4, 900, &run);
    count("an unlisted role, not held", run.end == LAVUTREMO_END_FAILED, run.end);
    play_for("a listed role, not held", "self 3\n" LISTED_900 PROVING, "self 2\n" LISTED_900 ASKING_FIRST, 4, 900,
             &listed);
    same_run("a wanted role, not held, listed or not", &run, &listed);
}

#define ALL_LISTED \
    "class 1 issuer-def\nclass 900 subject-all\nclass 901 subject-all\nclass 902 subject-all\n" \
    "class 903 subject-all\nclass 904 subject-all\n"
#define ASKING \
    "issued 3.1 <- 4.900 & 5.902\nissued 3.1 <- 3.903.900\nstored 1.901 <- 3\nstored 7.902 <- 3\n" \
    "sensitive 1.901 ack 6.904\n"
#define ASKED "stored 5.902 <- 2\nstored 6.904 <- 2\nsensitive 4.900 ack 1.901\nsensitive 8.900 ack 1.901\n"

/*
 * A sensitive role of an unlisted name, 4.900, held or not. Studio's proof of its Ack role, 1.901, is sensitive too, so
 * that House replies twice before it; a linked role and an intersection of unlisted names are asked for beside it.
 */
static void hidden(void)
{
    static struct run without, with, listed, access;
    play("not held", "self 3\n" ONE_LISTED ASKING, "self 2\n" ASKED, &without);
    play("held", "self 3\n" ONE_LISTED ASKING, "self 2\n" ASKED "stored 4.900 <- 2\n", &with);
    play("held, with an AC role", "self 3\n" ONE_LISTED ASKING,
         "self 2\n" ASKED "stored 4.900 <- 2\naccess 4.900 7.902\n", &access);
    count("held", with.end == LAVUTREMO_END_SUCCESS, with.end);
    count("held, with an AC role", access.end == LAVUTREMO_END_SUCCESS, access.end);
    count("not held", without.end == LAVUTREMO_END_FAILED, without.end);
    alike_until_acknowledged("held or not", &without, &with);
    alike_until_acknowledged("held with an AC role, or not", &without, &access);
    alike_until_acknowledged("held with an AC role, or without one", &with, &access);
    play("not held, listed", "self 3\n" ALL_LISTED ASKING, "self 2\n" ALL_LISTED ASKED, &listed);
    same_run("not held, listed or not", &without, &listed);
    play("held, listed", "self 3\n" ALL_LISTED ASKING, "self 2\n" ALL_LISTED ASKED "stored 4.900 <- 2\n", &listed);
    same_run("held, listed or not", &with, &listed);
}

/* The negotiation is damaged: reply, take and report say so, whoever's turn it is, and no byte changes. */
static void damaged(const char *what)
{
    static struct lent before;
    refused_now(what, LAVUTREMO_DAMAGED);
    before = lent;
    uint64_t answer = lavutremo_take(lent.tables, tables_len, lent.negotiation, LAVUTREMO_NEGOTIATION_BYTES, messages[1],
                                     lengths[1], lent.scratch, LAVUTREMO_SCRATCH_BYTES);
    count(what, answer == LAVUTREMO_DAMAGED && memcmp(&lent, &before, sizeof lent) == 0, answer);
    answer = lavutremo_report(lent.tables, tables_len, lent.negotiation, LAVUTREMO_NEGOTIATION_BYTES, 0);
    count(what, answer == LAVUTREMO_DAMAGED && memcmp(&lent, &before, sizeof lent) == 0, answer);
}

static void set_counts(unsigned mediator, unsigned requester)
{
    const uint8_t bytes[4] = {(uint8_t)(mediator >> 8), (uint8_t)mediator, (uint8_t)(requester >> 8), (uint8_t)requester};
    memcpy(lent.negotiation + MEDIATOR_MESSAGES_AT, bytes, sizeof bytes);
}

/* Counts that no negotiation with a node has, at both ends after the first message, where they are 1 and 0. */
static void wrong_counts(void)
{
    static const struct {
        const char *what;
        unsigned mediator, requester;
    } wrong[] = {{"the requester one ahead", 0, 1},
                 {"the mediator two ahead", 2, 0},
                 {"the requester one ahead of 512", 512, 513},
                 {"the mediator two ahead of 512", 514, 512},
                 {"no message and a node", 0, 0},
                 {"514 of each", 514, 514},
                 {"515 and 514", 515, 514},
                 {"65,535 and 1", 65535, 1},
                 {"0 and 65,535", 0, 65535},
                 {"32,768 of each", 32768, 32768},
                 {"32,769 and 32,768", 32769, 32768},
                 {"65,535 of each", 65535, 65535}};
    for (size_t i = 0; i < sizeof wrong / sizeof wrong[0]; i++) {
        begin_studio();
        given("the first reply", 0, LAVUTREMO_LEAST_REPLY_BYTES);
        set_counts(wrong[i].mediator, wrong[i].requester);
        damaged(wrong[i].what);
        begin_house();
        taken("the first message", 0);
        set_counts(wrong[i].mediator, wrong[i].requester);
        damaged(wrong[i].what);
    }
}

/* Without a node there is no message. */
static void counts_alone(void)
{
    static const unsigned wrong[][2] = {{1, 0}, {0, 1}, {1, 1}, {32768, 32768}};
    for (size_t i = 0; i < sizeof wrong / sizeof wrong[0]; i++) {
        begin_studio();
        set_counts(wrong[i][0], wrong[i][1]);
        damaged("messages and no node, the mediator");
        begin_house();
        set_counts(wrong[i][0], wrong[i][1]);
        damaged("messages and no node, the requester");
    }
}

/* The most messages that a negotiation may have are 514 of the mediator and 513 of the requester. */
static void most_counts(void)
{
    begin_studio();
    given("the first reply", 0, LAVUTREMO_LEAST_REPLY_BYTES);
    set_counts(514, 513);
    counted("514 and 513, the mediator", 514, 513);
    set_counts(1, 0);
    taken("the second message", 1);
    set_counts(513, 513);
    counted("513 of each", 513, 513);
    uint64_t answer = lavutremo_reply(lent.tables, tables_len, lent.negotiation, LAVUTREMO_NEGOTIATION_BYTES, lent.reply,
                                      sizeof lent.reply, lent.scratch, LAVUTREMO_SCRATCH_BYTES);
    count("a reply after 513 of each", answer == 256 * lengths[2], answer);
    counted("514 and 513 after a reply", 514, 513);
    begin_house();
    taken("the first message", 0);
    set_counts(514, 513);
    counted("514 and 513, the requester", 514, 513);
}

/* Rewrites the header in the order of layout number 1: one count of messages, the other counts two bytes before. */
static void put_old_header(void)
{
    uint8_t *header = lent.negotiation;
    unsigned sum = number_at(header + MEDIATOR_MESSAGES_AT) + number_at(header + REQUESTER_MESSAGES_AT);
    header[0] = 1;
    header[12] = (uint8_t)(sum >> 8);
    header[13] = (uint8_t)sum;
    memmove(header + 14, header + NODE_COUNT_AT, 4);
    memset(header + 18, 0, 2);
}

/* A negotiation of another layout number, its header in the order of today or of layout number 1. */
static void layout_numbers(void)
{
    static const uint8_t others[] = {0, 1, 3, 255};
    for (size_t i = 0; i < sizeof others; i++) {
        begin_studio();
        lent.negotiation[0] = others[i];
        damaged("another layout number of a fresh negotiation");
        lent.negotiation[0] = 2;
        given("the first reply", 0, LAVUTREMO_LEAST_REPLY_BYTES);
        lent.negotiation[0] = others[i];
        damaged("another layout number");
    }
    for (int index = 0; index < 4; index++) {
        begin_house();
        for (int i = 0; i <= index; i++)
            if (i % 2 == 0)
                taken("a message", i);
            else
                given("a reply", i, LAVUTREMO_LEAST_REPLY_BYTES);
        put_old_header();
        damaged("a whole record of layout number 1");
        lent.negotiation[0] = 2;
        damaged("a header of layout number 1 with number 2");
    }
}

int main(void)
{
    outside_the_sizes();
    wrong_tables();
    turns();
    marked_cases();
    wanted();
    hidden();
    wrong_counts();
    counts_alone();
    most_counts();
    layout_numbers();
    printf("%d passed, %d failed\n", passed, failed);
    return failed > 0;
}
