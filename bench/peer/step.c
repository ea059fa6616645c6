/* One step: every test of document 01, with nothing taken as checked, and then the instant. */
#include "limits.h"

/* LENGTH, LAST, TOO MANY, FIELD of the role count. */
static struct answer judge_counts(const struct tables *tables, u32 requests,
                                  const struct state *state)
{
    if (tables->periodic_length != PERIODIC_ROWS || tables->trigger_length != TRIGGER_ROWS
        || state->waiting_length != WAITING_NUMBERS || state->events_length != EVENTS) {
        return answer(LENGTH, 0);
    }
    if (state->instant > LAST_INSTANT) {
        return answer(LAST, 0);
    }
    if (requests > REQUESTS || tables->periodics > PERIODIC_ROWS
        || tables->triggers > TRIGGER_ROWS) {
        return answer(TOO_MANY, 0);
    }
    return tables->roles < 1 || tables->roles > ROLES ? answer(FIELD, 0) : answer(OK, 0);
}

/* FIELD of the rows. */
static struct answer judge_rows(const struct tables *tables)
{
    u32 i;

    for (i = 0; i < tables->periodics; i++) {
        if (!periodic_fits(&tables->periodic[i], tables->roles)) {
            return answer(FIELD, i);
        }
    }
    for (i = 0; i < tables->triggers; i++) {
        if (!trigger_fits(&tables->trigger[i], tables->roles)) {
            return answer(FIELD, tables->periodics + i);
        }
    }
    return answer(OK, 0);
}

/* REQUEST. */
static struct answer judge_requests(const struct request *asked, u32 count, u32 roles)
{
    u32 i;

    for (i = 0; i < count; i++) {
        if (!request_fits(&asked[i], roles)) {
            return answer(REQUEST, i);
        }
    }
    return answer(OK, 0);
}

/* The tests in their order; the levels are those of the loop test. */
static struct answer judge(const struct tables *tables, const struct request *asked, u32 count,
                           const struct state *state, byte *levels)
{
    struct answer found = judge_counts(tables, count, state);

    if (found.name == OK) {
        found = judge_rows(tables);
    }
    if (found.name == OK) {
        found = loop_test(tables->trigger, tables->triggers, levels);
    }
    return found.name == OK ? judge_requests(asked, count, tables->roles) : found;
}

/*
 * A periodic row is due at t. NO_END needs no test of its own: as a number it is above every
 * instant that is stepped.
 */
static inline int due(const struct periodic *row, u32 t)
{
    return row->begin <= t && t <= row->end
        && (t + row->period - row->first) % row->period < row->run;
}

/* The givens into the events buffer: what waited, whose row is cleared, what is due, requests. */
static void give(const struct tables *tables, const struct request *asked, u32 count,
                 struct state *state)
{
    u32 t = state->instant, i;
    u16 *waited = &state->waiting[EVENTS * (t % WAITING_ROWS)];
    const struct periodic *row;

    memcpy(state->events, waited, EVENTS * sizeof *waited);
    memset(waited, 0, EVENTS * sizeof *waited);
    for (i = 0; i < tables->periodics; i++) {
        row = &tables->periodic[i];
        if (due(row, t)) {
            state->events[row->event] |= (u16)(1u << row->priority);
        }
    }
    for (i = 0; i < count; i++) {
        u16 *to = asked[i].delay == 0 ? state->events
            : &state->waiting[EVENTS * ((t + asked[i].delay) % WAITING_ROWS)];

        to[asked[i].event] |= (u16)(1u << asked[i].priority);
    }
}

/* A nonblocked enable adds its role, a nonblocked disable removes it. */
static u64 roles_after(u64 roles, const u16 *events)
{
    u32 r;

    for (r = 0; r < ROLES; r++) {
        if (live(events, 2 * r + 1)) {
            roles |= (u64)1 << r;
        } else if (events[2 * r] != 0) {
            roles &= ~((u64)1 << r);
        }
    }
    return roles;
}

/* One step. After a refusal the state and the events are what they were. */
struct answer step(const struct tables *tables, const struct request *asked, u32 count,
                   struct state *state)
{
    byte levels[EVENTS];
    struct answer found = judge(tables, asked, count, state, levels);

    if (found.name != OK) {
        return found;
    }
    give(tables, asked, count, state);
    solve(tables, levels, state);
    state->roles = roles_after(state->roles, state->events);
    state->instant++;
    return found;
}
