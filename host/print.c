/* SPDX-License-Identifier: Apache-2.0 */
#include "print.h"

#include <string.h>

#include "layout.h"

/* The word of this number, the first having number first. */
static const char *word_of(const char *const *words, size_t count, unsigned first, unsigned number)
{
    return number >= first && number - first < count ? words[number - first] : "unknown";
}

#define WORD_OF(words, first, number) word_of(words, sizeof(words) / sizeof((words)[0]), first, number)

const char *refusal_words(unsigned number)
{
    static const char *const input[] = {"a length outside the sizes",
                                        "a command that is unknown or cut, a missing end, or bytes after the end",
                                        "an operand of wrong form, or an illegal initial state",
                                        "returned by no call",
                                        "a class rule broken",
                                        "tables out of order, repeated, self missing, or a size passed",
                                        "the other end is zero or self"};
    static const char *const state[] = {"the negotiation is damaged",
                                        "not that side's turn",
                                        "the negotiation has ended",
                                        "a command before open, or a second open",
                                        "no such node",
                                        "an edge of wrong form, or a node, edge or credential already present",
                                        "not justified",
                                        "already processed by the sender",
                                        "a size passed"};
    return number < LAVUTREMO_DAMAGED ? WORD_OF(input, LAVUTREMO_LENGTH, number)
                                      : WORD_OF(state, LAVUTREMO_DAMAGED, number);
}

const char *end_words(unsigned end)
{
    static const char *const words[] = {"none", "success", "failed", "stalled", "full"};
    return WORD_OF(words, LAVUTREMO_END_NONE, end);
}

const char *edge_words(unsigned kind)
{
    static const char *const words[] = {"implication",         "linking monitor", "linking solution",
                                        "linking implication", "intersection",    "control"};
    return WORD_OF(words, LAVUTREMO_EDGE_IMPLICATION, kind);
}

static const char *processed_words(unsigned state)
{
    static const char *const words[] = {"unprocessed", "verifier-processed", "opponent-processed", "processed"};
    return WORD_OF(words, 0, state);
}

const char *propagated_words(unsigned propagated, int is_goal)
{
    static const char *const words[] = {"unknown", "satisfied", "failed"};
    static const char *const goal_words[] = {"incomplete", "complete"};
    return is_goal ? WORD_OF(goal_words, 0, propagated) : WORD_OF(words, 0, propagated);
}

int print_role(FILE *to, const uint8_t *role)
{
    return fprintf(to, "%u.%u", number_at(role), number_at(role + 2));
}

/* The longest is an intersection of four roles. */
#define MOST_EXPRESSION_TEXT 80

static int parts_text(char *to, size_t size, const uint8_t *parts, unsigned count)
{
    int length = 0;
    for (unsigned i = 0; i < count && i < 4; i++)
        length += snprintf(to + length, size - (size_t)length, "%s%u.%u", i > 0 ? " & " : "", number_at(parts + 4 * i),
                           number_at(parts + 4 * i + 2));
    return length;
}

/* Returns how many characters it has. */
static int expression_text(char to[MOST_EXPRESSION_TEXT], const uint8_t *expression)
{
    const uint8_t *numbers = expression + 2;
    unsigned first = number_at(numbers), second = number_at(numbers + 2), third = number_at(numbers + 4);
    to[0] = '\0';
    switch (expression[0]) {
    case LAVUTREMO_KIND_ENTITY:
        return snprintf(to, MOST_EXPRESSION_TEXT, "%u", first);
    case LAVUTREMO_KIND_ROLE:
        return snprintf(to, MOST_EXPRESSION_TEXT, "%u.%u", first, second);
    case LAVUTREMO_KIND_LINKED:
        return snprintf(to, MOST_EXPRESSION_TEXT, "%u.%u.%u", first, second, third);
    case LAVUTREMO_KIND_INTERSECTION:
        return parts_text(to, MOST_EXPRESSION_TEXT, numbers, expression[1]);
    case LAVUTREMO_KIND_GOAL:
        return snprintf(to, MOST_EXPRESSION_TEXT, "goal %u", first);
    default:
        return snprintf(to, MOST_EXPRESSION_TEXT, "no expression");
    }
}

void print_expression(FILE *to, const uint8_t *expression)
{
    char text[MOST_EXPRESSION_TEXT];
    expression_text(text, expression);
    fputs(text, to);
}

void print_credential(FILE *to, const uint8_t *operands)
{
    print_role(to, operands);
    fprintf(to, " <- ");
    print_expression(to, operands + 4);
}

size_t command_size(uint8_t command)
{
    static const size_t sizes[] = {[LAVUTREMO_COMMAND_CREDENTIAL] = LAVUTREMO_CREDENTIAL_BYTES,
                                   [LAVUTREMO_COMMAND_OPEN] = 6,
                                   [LAVUTREMO_COMMAND_CHILD] = 24,
                                   [LAVUTREMO_COMMAND_EDGE] = 4,
                                   [LAVUTREMO_COMMAND_MARK] = 2,
                                   [LAVUTREMO_COMMAND_END] = 1};
    return command <= LAVUTREMO_COMMAND_END ? sizes[command] : 0;
}

/* Prints one whole command and returns the number that the next new node will have. */
static unsigned print_command(FILE *to, const uint8_t *command, unsigned next_node)
{
    const uint8_t *operands = command + 1;
    fprintf(to, "    ");
    switch (command[0]) {
    case LAVUTREMO_COMMAND_CREDENTIAL:
        fprintf(to, "credential ");
        print_credential(to, operands);
        break;
    case LAVUTREMO_COMMAND_OPEN:
        fprintf(to, "open node %u: ", next_node++);
        print_role(to, operands);
        fprintf(to, ", %s", processed_words(operands[4]));
        break;
    case LAVUTREMO_COMMAND_CHILD:
        fprintf(to, "edge %u <- %u, %s, new node %u: ", operands[1], next_node, edge_words(operands[0]), next_node);
        next_node++;
        print_expression(to, operands + 2);
        fprintf(to, " of %u, %s", number_at(operands + 20), processed_words(operands[22]));
        break;
    case LAVUTREMO_COMMAND_EDGE:
        fprintf(to, "edge %u <- %u, %s", operands[1], operands[2], edge_words(operands[0]));
        break;
    case LAVUTREMO_COMMAND_MARK:
        fprintf(to, "mark node %u", operands[0]);
        break;
    case LAVUTREMO_COMMAND_END:
        fprintf(to, "end");
        break;
    }
    fprintf(to, "\n");
    return next_node;
}

void print_commands(FILE *to, const uint8_t *message, size_t length, unsigned node_count)
{
    for (size_t at = 0; at < length;) {
        size_t size = command_size(message[at]);
        if (size == 0 || size > length - at) {
            fprintf(to, "    %zu bytes that are no command\n", length - at);
            return;
        }
        node_count = print_command(to, message + at, node_count);
        at += size;
    }
}

/* Which nodes are to be printed. */
struct marked {
    uint8_t is[LAVUTREMO_MOST_NODES];
};

static unsigned node_count_of(const uint8_t *negotiation)
{
    unsigned count = negotiation[NODE_COUNT_AT];
    return count < LAVUTREMO_MOST_NODES ? count : LAVUTREMO_MOST_NODES;
}

static unsigned edge_count_of(const uint8_t *negotiation)
{
    unsigned count = number_at(negotiation + EDGE_COUNT_AT);
    return count < LAVUTREMO_MOST_EDGES ? count : LAVUTREMO_MOST_EDGES;
}

static const uint8_t *node_of(const uint8_t *negotiation, unsigned number)
{
    return negotiation + NODES_AT + NODE_BYTES * number;
}

/* The widest role, and at least the width that most have. */
static int width_of(const uint8_t *negotiation, const struct marked *marked)
{
    int widest = 16;
    for (unsigned i = 0; i < node_count_of(negotiation); i++) {
        char text[MOST_EXPRESSION_TEXT];
        int width = marked->is[i] ? expression_text(text, node_of(negotiation, i)) : 0;
        widest = width > widest ? width : widest;
    }
    return widest;
}

static void print_node(FILE *to, const uint8_t *negotiation, unsigned number, unsigned propagated, int width)
{
    char text[MOST_EXPRESSION_TEXT];
    const uint8_t *node = node_of(negotiation, number);
    int ours = node[NODE_VERIFIER_AT] == negotiation[SIDE_AT];
    expression_text(text, node);
    fprintf(to, "    %4u  %-*s  %6u  %-10s  %8u\n", number, width, text, number_at(node + NODE_SUBJECT_AT),
            propagated_words(propagated, node[0] == LAVUTREMO_KIND_GOAL),
            number_at(negotiation + (ours ? SELF_AT : OTHER_AT)));
}

static void print_nodes(FILE *to, const uint8_t *negotiation, const struct marked *marked, const uint8_t *propagated)
{
    int width = width_of(negotiation, marked);
    fprintf(to, "    node  %-*s  holder  state       verifier\n", width, "role");
    for (unsigned i = 0; i < node_count_of(negotiation); i++)
        if (marked->is[i])
            print_node(to, negotiation, i, propagated[i], width);
}

/* Asks for the propagated state of a node. */
static unsigned propagated_of(const struct house *house, const uint8_t *negotiation, unsigned number)
{
    uint64_t report = lavutremo_report(house->bytes, house->length, negotiation, LAVUTREMO_NEGOTIATION_BYTES,
                                       (uint8_t)number);
    return lavutremo_number(report) == 0 ? lavutremo_propagated(report) : LAVUTREMO_UNKNOWN;
}

/* The nodes that a message can change by itself: new ones, marked ones and the parents of new edges. */
static void find_touched(const uint8_t *negotiation, const struct lavutremo_printed *printed, struct marked *touched)
{
    for (unsigned i = 0; i < node_count_of(negotiation); i++)
        touched->is[i] = i >= printed->nodes || node_of(negotiation, i)[NODE_STATE_AT] != printed->states[i];
    for (unsigned j = printed->edges; j < edge_count_of(negotiation); j++)
        touched->is[negotiation[EDGES_AT + EDGE_BYTES * j + 1] % LAVUTREMO_MOST_NODES] = 1;
}

static void touch_parents(const uint8_t *negotiation, unsigned child, struct marked *touched)
{
    for (unsigned j = 0; j < edge_count_of(negotiation); j++) {
        const uint8_t *edge = negotiation + EDGES_AT + EDGE_BYTES * j;
        if (edge[2] == child)
            touched->is[edge[1] % LAVUTREMO_MOST_NODES] = 1;
    }
}

/* The first node that is touched and not asked after, or the number of nodes. */
static unsigned next_touched(unsigned count, const struct marked *touched, const struct marked *asked)
{
    unsigned i = 0;
    while (i < count && !(touched->is[i] && !asked->is[i]))
        i++;
    return i;
}

/*
 * Finds the nodes that are new or have another propagated state, and keeps these. States are least solutions: a node's
 * changes only if the message touched it or the state of a child changed.
 */
static void find_changed(const struct house *house, const uint8_t *negotiation, struct lavutremo_printed *printed,
                         struct marked *changed)
{
    struct marked touched = {0}, asked = {0};
    unsigned count = node_count_of(negotiation), i;
    find_touched(negotiation, printed, &touched);
    while ((i = next_touched(count, &touched, &asked)) < count) {
        uint8_t state = (uint8_t)propagated_of(house, negotiation, i);
        asked.is[i] = 1;
        changed->is[i] = i >= printed->nodes || state != printed->propagated[i];
        printed->propagated[i] = state;
        if (changed->is[i])
            touch_parents(negotiation, i, &touched);
    }
}

/* Keeps what find_touched will compare with. */
static void keep_printed(const uint8_t *negotiation, struct lavutremo_printed *printed)
{
    printed->nodes = node_count_of(negotiation);
    printed->edges = edge_count_of(negotiation);
    for (unsigned i = 0; i < printed->nodes; i++)
        printed->states[i] = node_of(negotiation, i)[NODE_STATE_AT];
}

static unsigned message_count_of(const uint8_t *negotiation)
{
    return number_at(negotiation + MEDIATOR_MESSAGES_AT) + number_at(negotiation + REQUESTER_MESSAGES_AT);
}

void print_message(FILE *to, const struct house *house, const uint8_t *negotiation, const uint8_t *message,
                   size_t length, const char *direction, struct lavutremo_printed *printed)
{
    struct marked changed = {0}, none = {0};
    fprintf(to, "message %u, %s, %zu bytes\n", message_count_of(negotiation), direction, length);
    print_commands(to, message, length, printed->nodes);
    find_changed(house, negotiation, printed, &changed);
    keep_printed(negotiation, printed);
    if (memcmp(&changed, &none, sizeof none) != 0)
        print_nodes(to, negotiation, &changed, printed->propagated);
}

void print_counts(FILE *to, unsigned mediator, unsigned requester)
{
    fprintf(to, "messages: mediator %u, requester %u\n", mediator, requester);
}

void print_graph(FILE *to, const struct house *house, const uint8_t *negotiation)
{
    struct marked all;
    uint8_t propagated[LAVUTREMO_MOST_NODES];
    memset(&all, 1, sizeof all);
    for (unsigned i = 0; i < node_count_of(negotiation); i++)
        propagated[i] = (uint8_t)propagated_of(house, negotiation, i);
    print_nodes(to, negotiation, &all, propagated);
    fprintf(to, "    ");
    print_counts(to, number_at(negotiation + MEDIATOR_MESSAGES_AT), number_at(negotiation + REQUESTER_MESSAGES_AT));
    fprintf(to, "    end: %s\n", end_words(negotiation[END_AT]));
}
