/* The loop test, over rows of two words. Nodes have their own numbers: few nodes cost little. */
#include "peer.h"

/* A set of nodes: the row of those that a node reaches. */
struct row {
    u64 word[2];
};

/*
 * The nodes in the order in which they were met: the number of each event, the event of each
 * number, and the rows. What is no node has the number EVENTS, whose row nobody looks at.
 */
struct graph {
    u32 nodes;
    byte number[EVENTS];
    byte event[EVENTS];
    struct row reach[EVENTS + 1];
};

/* Whether a node is in the row. */
static inline int has(const struct row *row, u32 node)
{
    return (int)(row->word[node >> 6] >> (node & 63) & 1);
}

/* A node joins the row. */
static inline void add(struct row *row, u32 node)
{
    row->word[node >> 6] |= (u64)1 << (node & 63);
}

/* How many bits of a word are set. */
static inline u32 bits(u64 word)
{
    word -= word >> 1 & 0x5555555555555555u;
    word = (word & 0x3333333333333333u) + (word >> 2 & 0x3333333333333333u);
    word = (word + (word >> 4)) & 0x0F0F0F0F0F0F0F0Fu;
    return (u32)(word * 0x0101010101010101u >> 56);
}

/* The nodes: the heads of triggers with delay 0. Each reaches itself by zero edges. */
static void find_nodes(struct graph *graph, const struct trigger *trigger, u32 count)
{
    u32 i, n = 0;

    memset(graph->number, EVENTS, sizeof graph->number);
    for (i = 0; i < count; i++) {
        if (trigger[i].delay == 0 && graph->number[trigger[i].head] == EVENTS) {
            graph->number[trigger[i].head] = (byte)n;
            graph->event[n] = trigger[i].head;
            graph->reach[n].word[0] = graph->reach[n].word[1] = 0;
            add(&graph->reach[n], n);
            n++;
        }
    }
    graph->nodes = n;
}

/* Both edges of each body event, + from it and - from its conflict, lead to the head. */
static void draw(struct graph *graph, const struct trigger *trigger, u32 count)
{
    u32 i, k, head;

    graph->reach[EVENTS].word[0] = graph->reach[EVENTS].word[1] = 0;
    for (i = 0; i < count; i++) {
        if (trigger[i].delay != 0) {
            continue;
        }
        head = graph->number[trigger[i].head];
        for (k = 0; k < trigger[i].events; k++) {
            add(&graph->reach[graph->number[trigger[i].event[k]]], head);
            add(&graph->reach[graph->number[trigger[i].event[k] ^ 1]], head);
        }
    }
}

/* Whoever reaches a node also reaches all that the node reaches. */
static void close_rows(struct row *reach, u32 nodes)
{
    struct row *row, via;
    u32 k, word;
    u64 bit;

    for (k = 0; k < nodes; k++) {
        via = reach[k];
        word = k >> 6;
        bit = (u64)1 << (k & 63);
        for (row = reach; row < reach + nodes; row++) {
            if (row->word[word] & bit) {
                row->word[0] |= via.word[0];
                row->word[1] |= via.word[1];
            }
        }
    }
}

/* The first - edge, in order of from and then to, whose end reaches its start. */
static struct answer first_cycle(const struct graph *graph, const struct trigger *trigger,
                                 u32 count)
{
    u32 i, k, from, pair, first = EVENTS * EVENTS;
    const struct row *row;

    for (i = 0; i < count; i++) {
        if (trigger[i].delay != 0) {
            continue;
        }
        row = &graph->reach[graph->number[trigger[i].head]];
        for (k = 0; k < trigger[i].events; k++) {
            from = trigger[i].event[k] ^ 1;
            pair = EVENTS * from + trigger[i].head;
            if (graph->number[from] < EVENTS && has(row, graph->number[from]) && pair < first) {
                first = pair;
            }
        }
    }
    return first < EVENTS * EVENTS ? answer(LOOP, first) : answer(OK, 0);
}

/*
 * The loop test. The level of a node is how many nodes it does not reach: along an edge it never
 * falls, and along a - edge it rises where there is no loop. Other events have none.
 */
struct answer loop_test(const struct trigger *trigger, u32 count, byte *levels)
{
    struct graph graph;
    u32 i;

    find_nodes(&graph, trigger, count);
    draw(&graph, trigger, count);
    close_rows(graph.reach, graph.nodes);
    for (i = 0; i < graph.nodes; i++) {
        levels[graph.event[i]] = (byte)(graph.nodes - bits(graph.reach[i].word[0])
                                        - bits(graph.reach[i].word[1]));
    }
    return first_cycle(&graph, trigger, count);
}
