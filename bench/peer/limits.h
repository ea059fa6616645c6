/* What rows and requests may hold: asked by the readers once, and by every step again. */
#ifndef LIMITS_H
#define LIMITS_H

#include "peer.h"

/* The end of a periodic row, given its begin. */
static inline int end_fits(const struct periodic *row)
{
    return (row->begin <= row->end && row->end <= LAST_INSTANT) || row->end == NO_END;
}

/* Its period. */
static inline int period_fits(const struct periodic *row)
{
    return row->period >= 1 && row->period <= LONGEST_PERIOD;
}

/* Its run, given its period. */
static inline int run_fits(const struct periodic *row)
{
    return row->run >= 1 && row->run <= row->period;
}

/* A periodic row holds what it may. */
static inline int periodic_fits(const struct periodic *row, u32 roles)
{
    return row->begin <= LAST_INSTANT
        && end_fits(row)
        && period_fits(row)
        && row->first < row->period
        && run_fits(row)
        && row->event < 2 * roles
        && row->priority < PRIORITIES;
}

/* So many of the places are below twice the role count. */
static inline int of_roles(const byte *place, u32 count, u32 roles)
{
    u32 i;

    for (i = 0; i < count; i++) {
        if (place[i] >= 2 * roles) {
            return 0;
        }
    }
    return 1;
}

/* A trigger holds what it may; the places past its counts are ignored. */
static inline int trigger_fits(const struct trigger *row, u32 roles)
{
    return row->events >= 1 && row->events <= BODY_EVENTS
        && row->conditions <= BODY_CONDITIONS
        && of_roles(row->event, row->events, roles)
        && of_roles(row->condition, row->conditions, roles)
        && row->head < 2 * roles
        && row->priority < PRIORITIES
        && row->delay <= LONGEST_DELAY;
}

/* A request is within its limits. */
static inline int request_fits(const struct request *request, u32 roles)
{
    return request->event < 2 * roles
        && request->priority < PRIORITIES
        && request->delay <= LONGEST_DELAY;
}

#endif
