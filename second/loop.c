/* The loop test of document 01. */
#include "second.h"

#include <string.h>

/* Nodes, + and - edges, and for each event the row of events that it reaches. */
struct graph {
    uint8_t node[EVENTS];
    uint8_t plus[EVENTS][EVENTS];
    uint8_t minus[EVENTS][EVENTS];
    uint8_t reach[EVENTS][EVENTS];
};

/* Nodes are the head events of triggers with delay 0. */
static void mark_nodes(struct graph *graph, const struct trigger *trigger, uint32_t count)
{
    uint32_t i;

    for (i = 0; i < count; i++) {
        if (trigger[i].delay == 0) {
            graph->node[trigger[i].head] = 1;
        }
    }
}

/*
 * For each trigger of delay 0 and each body event E: + from E and - from conf(E) to the head, if
 * these are nodes.
 */
static void draw_edges(struct graph *graph, const struct trigger *trigger, uint32_t count)
{
    uint32_t i;
    unsigned k, body;

    for (i = 0; i < count; i++) {
        if (trigger[i].delay != 0) {
            continue;
        }
        for (k = 0; k < trigger[i].event_count; k++) {
            body = trigger[i].events[k];
            if (graph->node[body]) {
                graph->plus[body][trigger[i].head] = 1;
            }
            if (graph->node[conf(body)]) {
                graph->minus[conf(body)][trigger[i].head] = 1;
            }
        }
    }
}

/* Each event reaches itself by zero edges, and what an edge leads to by one. */
static void start_reach(struct graph *graph)
{
    unsigned from, to;

    for (from = 0; from < EVENTS; from++) {
        for (to = 0; to < EVENTS; to++) {
            graph->reach[from][to] = (uint8_t)(graph->plus[from][to] | graph->minus[from][to]);
        }
        graph->reach[from][from] = 1;
    }
}

/* Closes the reach: what reaches "via" also reaches all that "via" reaches. */
static void close_reach(struct graph *graph)
{
    unsigned via, from, to;

    for (via = 0; via < EVENTS; via++) {
        for (from = 0; from < EVENTS; from++) {
            if (from == via || !graph->reach[from][via]) {
                continue;
            }
            for (to = 0; to < EVENTS; to++) {
                graph->reach[from][to] = (uint8_t)(graph->reach[from][to] | graph->reach[via][to]);
            }
        }
    }
}

/* LOOP at the first - edge, in order of from and then to, whose end reaches its start; else OK. */
struct answer loop_test(const struct trigger *trigger, uint32_t count)
{
    struct graph graph;
    unsigned from, to;

    memset(&graph, 0, sizeof graph);
    mark_nodes(&graph, trigger, count);
    draw_edges(&graph, trigger, count);
    start_reach(&graph);
    close_reach(&graph);
    for (from = 0; from < EVENTS; from++) {
        for (to = 0; to < EVENTS; to++) {
            if (graph.minus[from][to] && graph.reach[to][from]) {
                return answer(LOOP, 128 * from + to);
            }
        }
    }
    return answer(OK, 0);
}
