/* One instant of document 01: givens, caused, the solution, the state after it. */
#include "second.h"

#include <stdio.h>
#include <stdlib.h>
#include <string.h>

/*
 * How many times S := Caused(S) may be taken before it must stand still.
 *
 * Let the level of a node be the largest number of - edges on a path that ends
 * in it. In a sheet without a loop each - edge leads out of one ring of nodes
 * and never back, a path meets at most 128 such rings, so a level is at most
 * 127. Whether a node of level k is caused depends on events that are no nodes
 * (these are caused exactly as given), by + edges on nodes of level at most k,
 * and by - edges on what S holds of nodes of level below k and of events that
 * are no nodes. So, whatever S was at the start: after 1 round S is right on
 * all events that are no nodes, and after k + 2 rounds also on all nodes of
 * level at most k. After 129 rounds it is right everywhere and the next round
 * changes nothing.
 */
enum { ROUNDS_MOST = 130 };

/* The givens: the due periodic events, the events waiting for t, the requests with delay 0. */
struct set givens_of(const struct tables *tables, const struct state *state,
                     const struct requests *requests)
{
    struct set givens;
    uint32_t t = state->instant, i;
    size_t k;
    unsigned event;

    memset(&givens, 0, sizeof givens);
    for (i = 0; i < tables->periodic_count; i++) {
        if (due(&tables->periodic[i], t)) {
            add(&givens, tables->periodic[i].priority, tables->periodic[i].event);
        }
    }
    for (event = 0; event < EVENTS; event++) {
        givens.priorities[event] = (uint16_t)(givens.priorities[event]
            | state->waiting[(t % WAITING_ROWS) * EVENTS + event]);
    }
    for (k = 0; k < requests->count; k++) {
        if (requests->list[k].delay == 0) {
            add(&givens, requests->list[k].priority, requests->list[k].event);
        }
    }
    return givens;
}

/*
 * Whether all conditions hold in ST and each body event E has some q with q:E in X and among the
 * unblocked.
 */
static int body_met(const struct trigger *trigger, uint64_t roles,
                    const struct set *x, const struct set *unblocked)
{
    unsigned i, body;

    for (i = 0; i < trigger->condition_count; i++) {
        if (!holds(trigger->conditions[i], roles)) {
            return 0;
        }
    }
    for (i = 0; i < trigger->event_count; i++) {
        body = trigger->events[i];
        if ((x->priorities[body] & unblocked->priorities[body]) == 0) {
            return 0;
        }
    }
    return 1;
}

/*
 * Caused(S): the least set that holds the givens and the head of each trigger of delay 0 whose
 * body is met, blocking tested against the fixed S.
 */
struct set caused(const struct tables *tables, uint64_t roles,
                  const struct set *givens, const struct set *set)
{
    struct set unblocked = unblocked_by(set);
    struct set x = *givens;
    const struct trigger *trigger;
    uint32_t i;
    int grown;

    do {
        grown = 0;
        for (i = 0; i < tables->trigger_count; i++) {
            trigger = &tables->trigger[i];
            if (trigger->delay == 0 && !in_set(&x, trigger->priority, trigger->head)
                && body_met(trigger, roles, &x, &unblocked)) {
                add(&x, trigger->priority, trigger->head);
                grown = 1;
            }
        }
    } while (grown);
    return x;
}

/* Stops the program when S is not Caused(S). */
static void demand_solution(const struct tables *tables, uint64_t roles,
                            const struct set *givens, const struct set *set)
{
    struct set again = caused(tables, roles, givens, set);

    if (!same_set(&again, set)) {
        fprintf(stderr, "second: S is not Caused(S) in a sheet without a loop\n");
        abort();
    }
}

/*
 * The solution of a sheet without a loop: S := Caused(S) from the empty set until nothing
 * changes.
 */
struct set solution(const struct tables *tables, uint64_t roles, const struct set *givens)
{
    struct set set, next;
    unsigned round;

    memset(&set, 0, sizeof set);
    for (round = 0; round < ROUNDS_MOST; round++) {
        next = caused(tables, roles, givens, &set);
        if (same_set(&next, &set)) {
            break;
        }
        set = next;
    }
    demand_solution(tables, roles, givens, &set);
    return set;
}

/* Lets priority:event wait for instant u, in row u mod 61. */
static void let_wait(struct state *state, uint32_t u, unsigned priority, unsigned event)
{
    uint16_t *number = &state->waiting[(u % WAITING_ROWS) * EVENTS + event];

    *number = (uint16_t)(*number | (1u << priority));
}

/*
 * Trigger heads of delay d > 0 whose body is met at t wait for t + d, as do requests of delay d
 * > 0.
 */
static void let_delayed_wait(const struct tables *tables, struct state *state,
                             const struct requests *requests, const struct set *set)
{
    struct set unblocked = unblocked_by(set);
    const struct trigger *trigger;
    const struct request *request;
    uint32_t i;
    size_t k;

    for (i = 0; i < tables->trigger_count; i++) {
        trigger = &tables->trigger[i];
        if (trigger->delay > 0 && body_met(trigger, state->roles, set, &unblocked)) {
            let_wait(state, state->instant + trigger->delay, trigger->priority, trigger->head);
        }
    }
    for (k = 0; k < requests->count; k++) {
        request = &requests->list[k];
        if (request->delay > 0) {
            let_wait(state, state->instant + request->delay, request->priority, request->event);
        }
    }
}

/*
 * ST after t: roles with a nonblocked enable in S are added, roles with a nonblocked disable
 * removed, others kept.
 */
static uint64_t roles_after(uint64_t roles, const struct set *set)
{
    struct set open = nonblocked(set);
    unsigned role;

    for (role = 0; role < ROLES_MOST; role++) {
        if (open.priorities[2 * role + 1] != 0) {
            roles |= UINT64_C(1) << role;
        }
        if (open.priorities[2 * role] != 0) {
            roles &= ~(UINT64_C(1) << role);
        }
    }
    return roles;
}

/*
 * One instant on tested tables, state and requests: the events buffer holds all of S and the
 * state moves on.
 */
void do_instant(const struct tables *tables, struct state *state,
                uint16_t *events, const struct requests *requests)
{
    struct set givens = givens_of(tables, state, requests);
    struct set set = solution(tables, state->roles, &givens);
    unsigned event;

    let_delayed_wait(tables, state, requests, &set);
    for (event = 0; event < EVENTS; event++) {
        state->waiting[(state->instant % WAITING_ROWS) * EVENTS + event] = 0;
        events[event] = set.priorities[event];
    }
    state->roles = roles_after(state->roles, &set);
    state->instant++;
}
