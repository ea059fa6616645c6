/* Single rules of document 01: events, conditions, due, blocked, requests. */
#include "second.h"

#include <string.h>

/* Event number 2 x role + 1 is enable, 2 x role is disable. */
static int is_enable(unsigned event)
{
    return event % 2 == 1;
}

/* The conflicting event has the same role and the other low bit. */
unsigned conf(unsigned event)
{
    return is_enable(event) ? event - 1 : event + 1;
}

/* Condition 2 x role is "not enabled", 2 x role + 1 is "enabled". */
int holds(unsigned condition, uint64_t roles)
{
    int enabled = ((roles >> (condition / 2)) & 1) == 1;

    return condition % 2 == 1 ? enabled : !enabled;
}

/* A periodic row is due at t when begin <= t <= end and (t + period - first) mod period < run. */
int due(const struct periodic *row, uint32_t t)
{
    return row->begin <= t && t <= row->end
        && (t + row->period - row->first) % row->period < row->run;
}

/* Whether priority:event is in the set. */
int in_set(const struct set *set, unsigned priority, unsigned event)
{
    return ((set->priorities[event] >> priority) & 1) == 1;
}

/* Puts priority:event into the set; equal prioritized events merge. */
void add(struct set *set, unsigned priority, unsigned event)
{
    set->priorities[event] = (uint16_t)(set->priorities[event] | (1u << priority));
}

/* Whether two sets of prioritized events are equal. */
int same_set(const struct set *one, const struct set *other)
{
    return memcmp(one->priorities, other->priorities, sizeof one->priorities) == 0;
}

/*
 * p:enable R is blocked by q:disable R in the set with q >= p, p:disable R by q:enable R with q
 * > p.
 */
static int blocked(const struct set *set, unsigned priority, unsigned event)
{
    unsigned q;

    for (q = 0; q < PRIORITIES; q++) {
        if (in_set(set, q, conf(event))) {
            if (is_enable(event) ? q >= priority : q > priority) {
                return 1;
            }
        }
    }
    return 0;
}

/* All prioritized events, in the set or not, that the set does not block. */
struct set unblocked_by(const struct set *set)
{
    struct set open;
    unsigned event, p;

    memset(&open, 0, sizeof open);
    for (event = 0; event < EVENTS; event++) {
        if (set->priorities[conf(event)] == 0) {
            open.priorities[event] = 0xFFFF; /* nothing there to block it */
            continue;
        }
        for (p = 0; p < PRIORITIES; p++) {
            if (!blocked(set, p, event)) {
                add(&open, p, event);
            }
        }
    }
    return open;
}

/* The members of the set that the set does not block. */
struct set nonblocked(const struct set *set)
{
    struct set open = unblocked_by(set);
    unsigned event;

    for (event = 0; event < EVENTS; event++) {
        open.priorities[event] = (uint16_t)(open.priorities[event] & set->priorities[event]);
    }
    return open;
}

/* The count of the events of 0 to 127 with a nonblocked member in the set. */
unsigned nonblocked_events(const struct set *set)
{
    struct set open = nonblocked(set);
    unsigned event, count = 0;

    for (event = 0; event < EVENTS; event++) {
        if (open.priorities[event] != 0) {
            count++;
        }
    }
    return count;
}

/*
 * Whether a request's event is below twice the role count, its priority at most 15, its delay at
 * most 60.
 */
int request_right(const struct request *request, uint32_t role_count)
{
    return request->event < 2 * role_count
        && request->priority < PRIORITIES
        && request->delay <= DELAY_MOST;
}
