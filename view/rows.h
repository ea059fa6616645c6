/* What frames that passed say: the rows of a sheet and the requests of a tape. */
#ifndef VIEW_ROWS_H
#define VIEW_ROWS_H

#include "hex.h"

enum {
    EVENTS = 128,
    BODY_MOST = 4,
    TRIGGERS_MOST = 256,
    INSTANT_MOST = 0xFFFFFF,
    PERIOD_MOST = 10080,
    PRIORITY_MOST = 15,
    DELAY_MOST = 60,
    DAY_MOST = 10080 /* the last minute of the longest day */
};

#define NO_END UINT32_C(0xFFFFFFFF)

/* A periodic row, in the order of its frame. */
struct periodic {
    uint32_t begin, end;
    unsigned period, first, run, event, priority;
};

/* A trigger; the places past its counts are unused. */
struct trigger {
    unsigned event_count, condition_count;
    unsigned events[BODY_MOST], conditions[BODY_MOST];
    unsigned head, priority, delay;
};

/* A request of a tape. */
struct request {
    uint32_t minute;
    unsigned event, priority, delay;
};

/* The counts of an end frame. */
struct end {
    unsigned periodic_count, trigger_count;
};

/* What was said of a sheet so far, with the line of each trigger. */
struct sheet {
    unsigned role_count, periodic_count, trigger_count;
    struct trigger triggers[TRIGGERS_MOST];
    unsigned long trigger_line[TRIGGERS_MOST];
};

/* rows.c: each gives 0 for a frame that it cannot read. */
int periodic_of(const struct frame *frame, struct periodic *row);
int trigger_of(const struct frame *frame, struct trigger *row);
int request_of(const struct frame *frame, struct request *request);
int end_of(const struct frame *frame, struct end *end);

#endif
