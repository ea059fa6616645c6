/* The public step of document 01: its tests in their order, then the instant. */
#include "second.h"

/* LENGTH: each lent table and buffer has its exact length. */
static int lengths_right(const struct tables *tables, const struct state *state,
                         size_t events_length)
{
    return table_lengths_right(tables)
        && state->waiting_length == WAITING_LENGTH
        && events_length == EVENTS;
}

/* TOO MANY: no count is over its limit. */
static int counts_right(const struct tables *tables, const struct requests *requests)
{
    return table_counts_right(tables) && requests->count <= REQUESTS_MOST;
}

/* REQUEST: the first request, from 0, that is not right. */
static struct answer request_test(const struct tables *tables, const struct requests *requests)
{
    uint32_t i;

    for (i = 0; i < requests->count; i++) {
        if (!request_right(&requests->list[i], tables->role_count)) {
            return answer(REQUEST, i);
        }
    }
    return answer(OK, 0);
}

/* The step tests LENGTH, LAST, TOO MANY, FIELD, LOOP, REQUEST; a refusal leaves all as given. */
struct answer step(const struct tables *tables, struct state *state,
                   uint16_t *events, size_t events_length,
                   const struct requests *requests)
{
    struct answer found;

    if (!lengths_right(tables, state, events_length)) {
        return answer(LENGTH, 0);
    }
    if (state->instant > INSTANT_MOST) {
        return answer(LAST, 0);
    }
    if (!counts_right(tables, requests)) {
        return answer(TOO_MANY, 0);
    }
    found = field_and_loop(tables);
    if (found.number != OK) {
        return found;
    }
    found = request_test(tables, requests);
    if (found.number != OK) {
        return found;
    }
    do_instant(tables, state, events, requests);
    return answer(OK, 0);
}
