/*
 * The loop that the program found: a shortest circle through its - edge. Edges are those of
 * document 01's loop test, read off the triggers of delay 0 whenever one is asked for.
 */
#include "circle.h"

enum {
    PLUS = 0,
    MINUS = 1,
    NOWHERE = EVENTS
};

/* An edge that may be there or not. */
struct edge {
    unsigned from;
    unsigned to;
    unsigned sign;
};

/* An edge of its parts. */
static struct edge make_edge(unsigned from, unsigned to, unsigned sign)
{
    struct edge made;

    made.from = from;
    made.to = to;
    made.sign = sign;
    return made;
}

/*
 * Whether a trigger draws an edge: + from a body event, - from the event that conflicts with it,
 * to the head.
 */
static int draws(const struct trigger *row, struct edge edge)
{
    unsigned i;

    if (row->delay != 0 || row->head != edge.to) {
        return 0;
    }
    for (i = 0; i < row->event_count; i++) {
        if ((row->events[i] ^ edge.sign) == edge.from) {
            return 1;
        }
    }
    return 0;
}

/* The first trigger, from this row on, that draws an edge; the trigger count when none does. */
static unsigned drawn_by(const struct sheet *sheet, struct edge edge, unsigned row)
{
    while (row < sheet->trigger_count && !draws(&sheet->triggers[row], edge)) {
        row++;
    }
    return row;
}

/* Whether an event is a node: the head of some trigger of delay 0. */
static int is_node(const struct sheet *sheet, unsigned event)
{
    unsigned row;

    for (row = 0; row < sheet->trigger_count; row++) {
        if (sheet->triggers[row].delay == 0 && sheet->triggers[row].head == event) {
            return 1;
        }
    }
    return 0;
}

/* Whether an edge is there. */
static int is_edge(const struct sheet *sheet, struct edge edge)
{
    return is_node(sheet, edge.from) && drawn_by(sheet, edge, 0) < sheet->trigger_count;
}

/* Whether one event leads to another by an edge of either sign. */
static int leads(const struct sheet *sheet, unsigned from, unsigned to)
{
    return is_edge(sheet, make_edge(from, to, PLUS)) || is_edge(sheet, make_edge(from, to, MINUS));
}

/*
 * For each event the one before it on a shortest way from the start, or NOWHERE; before the start
 * stands the start.
 */
static void find_ways(const struct sheet *sheet, unsigned start, unsigned before[EVENTS])
{
    unsigned found[EVENTS], count = 1, done, next;

    for (next = 0; next < EVENTS; next++) {
        before[next] = NOWHERE;
    }
    before[start] = start;
    found[0] = start;
    for (done = 0; done < count; done++) {
        for (next = 0; next < EVENTS; next++) {
            if (before[next] == NOWHERE && leads(sheet, found[done], next)) {
                before[next] = found[done];
                found[count++] = next;
            }
        }
    }
}

/*
 * The triggers that draw an edge, each with its line, as 'trigger 0 (line 3), trigger 4 (line 9)
 * and trigger 7 (line 12)'; whether there are several.
 */
static int say_triggers(const struct sheet *sheet, struct edge edge)
{
    unsigned row, next, count = 0;

    for (row = drawn_by(sheet, edge, 0); row < sheet->trigger_count; row = next) {
        next = drawn_by(sheet, edge, row + 1);
        if (count > 0) {
            printf(next < sheet->trigger_count ? ", " : " and ");
        }
        printf("trigger %u (line %lu)", row, sheet->trigger_line[row]);
        count++;
    }
    return count > 1;
}

/* One step of the circle, on a line of its own. */
static void say_step(const struct names *names, const struct sheet *sheet, struct edge edge)
{
    int several;

    printf("  ");
    say_event(stdout, names, edge.from);
    if (edge.sign == PLUS) {
        printf(" can give ");
        say_event(stdout, names, edge.to);
        printf(", by ");
        say_triggers(sheet, edge);
        printf("\n");
        return;
    }
    printf(" can block ");
    say_event(stdout, names, edge.from ^ 1);
    printf(", which ");
    several = say_triggers(sheet, edge);
    printf(several ? " need for " : " needs for ");
    say_event(stdout, names, edge.to);
    printf("\n");
}

/*
 * Says the - edge and then a shortest way back to its start, + where an edge has both signs; 0
 * when there is no such circle.
 */
int say_circle(const struct names *names, const struct sheet *sheet, unsigned from, unsigned to)
{
    unsigned before[EVENTS], way[EVENTS], count = 0, at;
    struct edge back;

    if (from >= EVENTS || to >= EVENTS || !is_edge(sheet, make_edge(from, to, MINUS))) {
        return 0;
    }
    find_ways(sheet, to, before);
    if (before[from] == NOWHERE) {
        return 0;
    }
    for (at = from; at != to; at = before[at]) {
        way[count++] = at;
    }
    printf("Within one minute these steps go round in a circle, and at least one of them takes an"
           " event away, so that the rules may not settle which events happen:\n");
    say_step(names, sheet, make_edge(from, to, MINUS));
    for (at = to; count > 0; at = way[count]) {
        count--;
        back = make_edge(at, way[count], PLUS);
        say_step(names, sheet, is_edge(sheet, back) ? back : make_edge(at, way[count], MINUS));
    }
    printf("Only triggers without a delay take part; their priorities and conditions do not count."
           " So take one of these steps away: do without the triggers that this step names, or"
           " give them a delay. What comes after a delay comes too late for the minute itself, so"
           " look at the picture then. How two roles are kept apart without a loop is in README.md."
           " There may be other loops.\n");
    return 1;
}
