/* SPDX-License-Identifier: Apache-2.0 */
#include "dot.h"

#include <string.h>

#include "layout.h"
#include "print.h"

/* Which of the credentials shown are meant. */
struct choice {
    uint8_t chosen[LAVUTREMO_MOST_SHOWN];
};

static const uint8_t *node_at(const uint8_t *negotiation, unsigned number)
{
    return negotiation + NODES_AT + NODE_BYTES * number;
}

static const uint8_t *shown_at(const uint8_t *negotiation, unsigned number)
{
    return negotiation + SHOWN_AT + SHOWN_BYTES * number;
}

/* Whether "parent from child" holds over the chosen credentials. */
static int holds(const uint8_t *negotiation, const struct choice *choice, const uint8_t *parent, const uint8_t *child)
{
    uint8_t credentials[LAVUTREMO_MOST_CREDENTIALS_BYTES];
    size_t length = 0;
    for (unsigned i = 0; i < negotiation[SHOWN_COUNT_AT]; i++) {
        if (!choice->chosen[i])
            continue;
        credentials[length] = LAVUTREMO_COMMAND_CREDENTIAL;
        memcpy(credentials + length + 1, shown_at(negotiation, i), SHOWN_BYTES);
        length += LAVUTREMO_CREDENTIAL_BYTES;
    }
    credentials[length++] = LAVUTREMO_COMMAND_END;
    uint64_t answer = lavutremo_question(credentials, length, parent, LAVUTREMO_EXPRESSION_BYTES, child,
                                         LAVUTREMO_EXPRESSION_BYTES);
    return lavutremo_number(answer) == 0 && lavutremo_value(answer) == 1;
}

/* Chooses the credential that says "parent from child" by itself. Returns 0 if none does. */
static int choose_direct(const uint8_t *negotiation, struct choice *choice, const uint8_t *parent, const uint8_t *child)
{
    memset(choice, 0, sizeof *choice);
    for (unsigned i = 0; i < negotiation[SHOWN_COUNT_AT] && parent[0] == LAVUTREMO_KIND_ROLE; i++) {
        const uint8_t *credential = shown_at(negotiation, i);
        choice->chosen[i] = memcmp(credential, parent + 2, 4) == 0 &&
                            memcmp(credential + 4, child, LAVUTREMO_EXPRESSION_BYTES) == 0;
        if (choice->chosen[i])
            return 1;
    }
    return 0;
}

/* Chooses those that are left when each, first to last, is dropped without which "parent from child" still holds. */
static void choose_needed(const uint8_t *negotiation, struct choice *choice, const uint8_t *parent, const uint8_t *child)
{
    memset(choice->chosen, 1, sizeof choice->chosen);
    for (unsigned i = 0; i < negotiation[SHOWN_COUNT_AT]; i++) {
        choice->chosen[i] = 0;
        if (!holds(negotiation, choice, parent, child))
            choice->chosen[i] = 1;
    }
}

static void print_credentials(FILE *to, const uint8_t *negotiation, const uint8_t *parent, const uint8_t *child)
{
    struct choice choice;
    if (!choose_direct(negotiation, &choice, parent, child))
        choose_needed(negotiation, &choice, parent, child);
    for (unsigned i = 0; i < negotiation[SHOWN_COUNT_AT]; i++) {
        if (!choice.chosen[i])
            continue;
        fprintf(to, "\\n");
        print_credential(to, shown_at(negotiation, i));
    }
}

/* The parent stands above: DOT's edge leads to the child, and the arrow back. */
static void print_edge(FILE *to, const uint8_t *negotiation, const uint8_t *edge)
{
    unsigned kind = edge[0], parent = edge[1], child = edge[2];
    fprintf(to, "    n%u -> n%u [dir=back%s, label=\"%s", parent, child,
            kind == LAVUTREMO_EDGE_CONTROL ? ", style=dashed" : "", edge_words(kind));
    if (kind == LAVUTREMO_EDGE_IMPLICATION)
        print_credentials(to, negotiation, node_at(negotiation, parent), node_at(negotiation, child));
    fprintf(to, "\"];\n");
}

static void print_node(FILE *to, const struct house *house, const uint8_t *negotiation, unsigned number)
{
    static const char *const colours[] = {"white", "palegreen", "lightpink", "white"};
    const uint8_t *node = node_at(negotiation, number);
    int is_goal = node[0] == LAVUTREMO_KIND_GOAL;
    unsigned propagated = lavutremo_propagated(lavutremo_report(house->bytes, house->length, negotiation,
                                                                LAVUTREMO_NEGOTIATION_BYTES, (uint8_t)number));
    fprintf(to, "        n%u [label=\"%u: ", number, number);
    print_expression(to, node);
    fprintf(to, "\\nof %u\\n%s\", fillcolor=%s%s];\n", number_at(node + NODE_SUBJECT_AT),
            propagated_words(propagated, is_goal), colours[propagated], is_goal ? ", shape=ellipse" : "");
}

/* The nodes of one verifier: 0 the mediator, 1 the requester. */
static void print_lane(FILE *to, const struct house *house, const uint8_t *negotiation, unsigned verifier)
{
    int is_self = negotiation[SIDE_AT] == verifier;
    fprintf(to, "    subgraph cluster_%u {\n", verifier);
    fprintf(to, "        label=\"asked by %u, the %s\"; labelloc=b;\n",
            number_at(negotiation + (is_self ? SELF_AT : OTHER_AT)), verifier == 0 ? "mediator" : "requester");
    for (unsigned i = 0; i < negotiation[NODE_COUNT_AT]; i++)
        if (node_at(negotiation, i)[NODE_VERIFIER_AT] == verifier)
            print_node(to, house, negotiation, i);
    fprintf(to, "    }\n");
}

void print_dot(FILE *to, const struct house *house, const uint8_t *negotiation)
{
    fprintf(to, "digraph negotiation {\n    label=\"end: %s\"; fontname=Helvetica;\n", end_words(negotiation[END_AT]));
    fprintf(to, "    node [shape=box, style=filled, fontname=Helvetica];\n    edge [fontname=Helvetica];\n");
    print_lane(to, house, negotiation, 0);
    print_lane(to, house, negotiation, 1);
    for (unsigned i = 0; i < number_at(negotiation + EDGE_COUNT_AT); i++)
        print_edge(to, negotiation, negotiation + EDGES_AT + EDGE_BYTES * i);
    fprintf(to, "}\n");
}
