/* The first bad field of a frame, in frame order: the byte at which it starts, or 0 for none. */
#include "second.h"

/* A header: the version, then the role count. */
unsigned bad_header(unsigned version, uint32_t role_count)
{
    if (version != SHEET_VERSION) {
        return VERSION_AT;
    }
    return role_count < 1 || role_count > ROLES_MOST ? ROLES_AT : 0;
}

/*
 * A periodic row. End is measured by begin, and first and run by the period, only once these are
 * themselves right.
 */
unsigned bad_periodic(const struct periodic *row, uint32_t role_count)
{
    if (row->begin > INSTANT_MOST) {
        return BEGIN_AT;
    }
    if (row->end != NO_END && (row->end < row->begin || row->end > INSTANT_MOST)) {
        return END_AT;
    }
    if (row->period < 1 || row->period > PERIOD_MOST) {
        return PERIOD_AT;
    }
    if (row->first >= row->period) {
        return FIRST_AT;
    }
    if (row->run < 1 || row->run > row->period) {
        return RUN_AT;
    }
    if (row->event >= 2 * role_count) {
        return EVENT_AT;
    }
    return row->priority >= PRIORITIES ? PRIORITY_AT : 0;
}

/* The first of some numbers that is not below a limit; how many there are when all are. */
static unsigned first_over(const uint8_t *numbers, unsigned count, uint32_t limit)
{
    unsigned i = 0;

    while (i < count && numbers[i] < limit) {
        i++;
    }
    return i;
}

/*
 * A trigger; the places past its counts are ignored, and nothing but the counts is looked at when
 * they are wrong.
 */
unsigned bad_trigger(const struct trigger *row, uint32_t role_count)
{
    unsigned conditions = BODY_AT + row->event_count, head = conditions + row->condition_count;
    unsigned over;

    if (row->event_count < 1 || row->event_count > BODY_MOST) {
        return EVENT_COUNT_AT;
    }
    if (row->condition_count > BODY_MOST) {
        return CONDITION_COUNT_AT;
    }
    over = first_over(row->events, row->event_count, 2 * role_count);
    if (over < row->event_count) {
        return BODY_AT + over;
    }
    over = first_over(row->conditions, row->condition_count, 2 * role_count);
    if (over < row->condition_count) {
        return conditions + over;
    }
    if (row->head >= 2 * role_count) {
        return head;
    }
    if (row->priority >= PRIORITIES) {
        return head + 1;
    }
    return row->delay > DELAY_MOST ? head + 2 : 0;
}
