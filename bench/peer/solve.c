/* The solver of one instant, level by level, in one pass over the triggers. */
#include "peer.h"

enum { NONE = TRIGGER_ROWS };

/* Chains of triggers: a trigger stands in one chain at a time, and link says who comes after it. */
struct chains {
    u16 link[TRIGGER_ROWS];
    u16 level[EVENTS];   /* those that have not had their turn, by the level of the head */
    u16 wanting[EVENTS]; /* those that had it and lacked this event */
    u16 later;           /* those with a delay */
};

/* A trigger comes to the front of a chain. */
static inline void push(struct chains *chains, u16 *chain, u32 trigger)
{
    chains->link[trigger] = *chain;
    *chain = (u16)trigger;
}

/* Takes the first trigger off a chain that is not empty. */
static inline u32 pop(const struct chains *chains, u16 *chain)
{
    u32 trigger = *chain;

    *chain = chains->link[trigger];
    return trigger;
}

/* The conditions of a trigger hold in the roles. */
static inline int allowed(const struct trigger *row, u64 roles)
{
    u32 k;

    for (k = 0; k < row->conditions; k++) {
        if (((roles >> (row->condition[k] >> 1)) ^ row->condition[k]) & 1) {
            return 0;
        }
    }
    return 1;
}

/* The first body event of a trigger that is not live; EVENTS where all are. */
static inline u32 lacking(const struct trigger *row, const u16 *events)
{
    u32 k;

    for (k = 0; k < row->events; k++) {
        if (!live(events, row->event[k])) {
            return row->event[k];
        }
    }
    return EVENTS;
}

/* The triggers whose conditions hold come into their chains. */
static void fill_chains(struct chains *chains, const struct tables *tables,
                        const byte *levels, u64 roles)
{
    const struct trigger *row;
    u32 i;

    for (i = 0; i < EVENTS; i++) {
        chains->level[i] = chains->wanting[i] = NONE;
    }
    chains->later = NONE;
    for (i = tables->triggers; i-- > 0;) {
        row = &tables->trigger[i];
        if (allowed(row, roles)) {
            push(chains, row->delay ? &chains->later : &chains->level[levels[row->head]], i);
        }
    }
}

/*
 * The triggers of one level. What could block their body events lies on lower levels: an event that
 * is live now stays so, and when one comes to be live, those that wanted it get another turn.
 */
static void settle(struct chains *chains, const struct trigger *trigger, u32 level, u16 *events)
{
    u16 *turn = &chains->level[level];

    while (*turn != NONE) {
        u32 i = pop(chains, turn), head = trigger[i].head;
        u32 lacks = lacking(&trigger[i], events);

        if (lacks < EVENTS) {
            push(chains, &chains->wanting[lacks], i);
            continue;
        }
        events[head] |= (u16)(1u << trigger[i].priority);
        if (chains->wanting[head] != NONE && live(events, head)) {
            while (chains->wanting[head] != NONE) {
                push(chains, turn, pop(chains, &chains->wanting[head]));
            }
        }
    }
}

/* The heads with a delay wait in the row of their instant. */
static void put_off(struct chains *chains, const struct trigger *trigger, struct state *state)
{
    u32 now = state->instant % WAITING_ROWS, row;

    while (chains->later != NONE) {
        u32 i = pop(chains, &chains->later);

        if (lacking(&trigger[i], state->events) < EVENTS) {
            continue;
        }
        row = now + trigger[i].delay;
        row = row < WAITING_ROWS ? row : row - WAITING_ROWS;
        state->waiting[EVENTS * row + trigger[i].head] |= (u16)(1u << trigger[i].priority);
    }
}

/* The events, which are the givens, become the solution; what has a delay comes to wait. */
void solve(const struct tables *tables, const byte *levels, struct state *state)
{
    struct chains chains;
    u32 level;

    fill_chains(&chains, tables, levels, state->roles);
    for (level = 0; level < EVENTS; level++) {
        settle(&chains, tables->trigger, level, state->events);
    }
    put_off(&chains, tables->trigger, state);
}
