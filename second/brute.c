/* Every candidate set against S = Caused(S), on tiny sheets. */
#include "gen.h"

#include <stdio.h>
#include <stdlib.h>
#include <string.h>

enum { CANDIDATES_MOST = 16 };

/* One prioritized event. */
struct member {
    unsigned priority;
    unsigned event;
};

/* A tiny sheet with a state and requests. */
struct tiny {
    struct periodic periodic[PERIODIC_MOST];
    struct trigger trigger[TRIGGERS_MOST];
    uint16_t waiting[WAITING_LENGTH];
    struct request list[REQUESTS_MOST];
    struct tables tables;
    struct state state;
    struct requests requests;
};

/* The counts that are printed. */
struct tally {
    uint64_t loop_free;
    uint64_t fired;   /* of these: the solution is more than the givens */
    uint64_t stopped; /* of these: blocking stopped a trigger */
    uint64_t passed;
    uint64_t failed;
    uint64_t with_loop[3]; /* with 0, 1 and more solutions */
};

/*
 * The members that any solution can have: the givens and the heads of triggers
 * of delay 0. Nothing else can be in one: the set of exactly these is closed
 * under the two rules of Caused(S) for whatever S, and Caused(S) is the least
 * set that is, so S = Caused(S) holds no other member.
 */
static unsigned possible_members(const struct tables *tables, const struct set *givens,
                                 struct member *members)
{
    struct set possible = *givens;
    unsigned count = 0, event, p;
    uint32_t i;

    for (i = 0; i < tables->trigger_count; i++) {
        if (tables->trigger[i].delay == 0) {
            add(&possible, tables->trigger[i].priority, tables->trigger[i].head);
        }
    }
    for (event = 0; event < EVENTS; event++) {
        for (p = 0; p < PRIORITIES; p++) {
            if (!in_set(&possible, p, event)) {
                continue;
            }
            if (count == CANDIDATES_MOST) {
                fprintf(stderr, "second: too many members to try every set\n");
                abort();
            }
            members[count].priority = p;
            members[count].event = event;
            count++;
        }
    }
    return count;
}

/* Tries every set of possible members; how many are solutions, and the last of them. */
unsigned count_solutions(const struct tables *tables, uint64_t roles,
                         const struct set *givens, struct set *found)
{
    struct member members[CANDIDATES_MOST];
    unsigned count = possible_members(tables, givens, members), solutions = 0, i;
    uint32_t candidate;
    struct set set, again;

    memset(found, 0, sizeof *found);
    for (candidate = 0; candidate < (UINT32_C(1) << count); candidate++) {
        memset(&set, 0, sizeof set);
        for (i = 0; i < count; i++) {
            if ((candidate >> i) & 1) {
                add(&set, members[i].priority, members[i].event);
            }
        }
        again = caused(tables, roles, givens, &set);
        if (same_set(&set, &again)) {
            solutions++;
            *found = set;
        }
    }
    return solutions;
}

/* A trigger of delay 0 with few roles and priorities. */
static void tiny_trigger(struct dice *dice, struct trigger *row, uint32_t role_count)
{
    unsigned i;

    memset(row, 0, sizeof *row);
    row->event_count = (uint8_t)(chance(dice, 80) ? 1 : between(dice, 1, 3));
    row->condition_count = (uint8_t)(chance(dice, 70) ? 0 : between(dice, 1, 2));
    for (i = 0; i < row->event_count; i++) {
        row->events[i] = (uint8_t)below(dice, 2 * role_count);
    }
    for (i = 0; i < row->condition_count; i++) {
        row->conditions[i] = (uint8_t)below(dice, 2 * role_count);
    }
    row->head = (uint8_t)below(dice, 2 * role_count);
    row->priority = (uint8_t)below(dice, 3);
    row->delay = (uint8_t)(chance(dice, 5) ? between(dice, 1, 2) : 0);
}

/* An event to be given: any one, or more often a body event of some trigger. */
static uint8_t event_to_give(struct dice *dice, const struct tiny *tiny)
{
    uint32_t any = below(dice, 2 * tiny->tables.role_count);
    uint32_t row = below(dice, tiny->tables.trigger_count);

    if (tiny->tables.trigger_count > 0 && chance(dice, 70)) {
        return tiny->trigger[row].events[0];
    }
    return (uint8_t)any;
}

/* Gives one event, as a request, as a waiting event or as a periodic event. */
static void tiny_given(struct dice *dice, struct tiny *tiny)
{
    uint8_t event = event_to_give(dice, tiny);
    uint8_t priority = (uint8_t)below(dice, 3);
    uint32_t way = below(dice, 3);
    struct periodic *row = &tiny->periodic[tiny->tables.periodic_count];
    uint16_t *number = &tiny->waiting[(tiny->state.instant % WAITING_ROWS) * EVENTS + event];

    if (way == 0) {
        tiny->list[tiny->requests.count].event = event;
        tiny->list[tiny->requests.count].priority = priority;
        tiny->list[tiny->requests.count].delay = 0;
        tiny->requests.count++;
    } else if (way == 1) {
        *number = (uint16_t)(*number | (1u << priority));
    } else {
        row->begin = 0;
        row->end = NO_END;
        row->period = 1;
        row->first = 0;
        row->run = 1;
        row->event = event;
        row->priority = priority;
        tiny->tables.periodic_count++;
    }
}

/* Moves the head's role above those of the body, so that no cycle comes through this trigger. */
static void put_in_order(struct dice *dice, struct trigger *row, uint32_t role_count)
{
    uint32_t cut = between(dice, 1, role_count - 1), i;

    for (i = 0; i < row->event_count; i++) {
        row->events[i] = (uint8_t)(row->events[i] % (2 * cut));
    }
    row->head = (uint8_t)(2 * cut + row->head % (2 * (role_count - cut)));
}

/* A random tiny sheet, at most 6 triggers and 5 givens. */
static void tiny_sheet(struct dice *dice, struct tiny *tiny)
{
    uint32_t triggers, givens, i;
    int ordered = chance(dice, 50);

    memset(tiny, 0, sizeof *tiny);
    tiny->tables.periodic = tiny->periodic;
    tiny->tables.periodic_length = PERIODIC_MOST;
    tiny->tables.trigger = tiny->trigger;
    tiny->tables.trigger_length = TRIGGERS_MOST;
    tiny->tables.role_count = between(dice, 1, 4);
    tiny->state.waiting = tiny->waiting;
    tiny->state.waiting_length = WAITING_LENGTH;
    tiny->state.instant = below(dice, 1000);
    tiny->state.roles = below(dice, 16);
    tiny->requests.list = tiny->list;
    triggers = chance(dice, 5) ? 0 : between(dice, 1, 6);
    for (i = 0; i < triggers; i++) {
        tiny_trigger(dice, &tiny->trigger[i], tiny->tables.role_count);
        if (ordered && tiny->tables.role_count > 1) {
            put_in_order(dice, &tiny->trigger[i], tiny->tables.role_count);
        }
    }
    tiny->tables.trigger_count = triggers;
    givens = chance(dice, 5) ? 0 : between(dice, 1, 5);
    for (i = 0; i < givens; i++) {
        tiny_given(dice, tiny);
    }
}

/* Counts a sheet without a loop, and whether a trigger fired in it or was stopped by blocking. */
static void count_loop_free(const struct tiny *tiny, uint64_t roles, const struct set *givens,
                            const struct set *found, struct tally *tally)
{
    struct set none, loose;

    memset(&none, 0, sizeof none);
    loose = caused(&tiny->tables, roles, givens, &none);
    tally->loop_free++;
    tally->fired += same_set(found, givens) ? 0 : 1;
    tally->stopped += same_set(found, &loose) ? 0 : 1;
}

/*
 * Tries one tiny sheet: without a loop there is one solution and the step finds it; with one the
 * step says LOOP.
 */
static void try_tiny(struct tiny *tiny, struct tally *tally)
{
    struct set givens = givens_of(&tiny->tables, &tiny->state, &tiny->requests);
    struct set found, events;
    uint64_t roles = tiny->state.roles;
    unsigned solutions = count_solutions(&tiny->tables, roles, &givens, &found);
    struct answer loop = loop_test(tiny->trigger, tiny->tables.trigger_count);
    struct answer stepped = step(&tiny->tables, &tiny->state, events.priorities, EVENTS, &tiny->requests);

    if (loop.number == OK) {
        count_loop_free(tiny, roles, &givens, &found, tally);
        if (solutions == 1 && stepped.number == OK && same_set(&found, &events)) {
            tally->passed++;
        } else {
            tally->failed++;
        }
        return;
    }
    tally->with_loop[solutions > 2 ? 2 : solutions]++;
    if (stepped.number != LOOP || stepped.place != loop.place) {
        tally->failed++;
    }
}

/* The command brute: so many random tiny sheets, and the counts. */
int command_brute(uint64_t cases, uint64_t seed)
{
    static struct tiny tiny;
    struct tally tally;
    struct dice dice = dice_of(seed, "brute");
    uint64_t i;

    memset(&tally, 0, sizeof tally);
    for (i = 0; i < cases; i++) {
        tiny_sheet(&dice, &tiny);
        try_tiny(&tiny, &tally);
    }
    printf("%llu sheets without a loop: in %llu a trigger fires, in %llu blocking stops one\n",
           (unsigned long long)tally.loop_free, (unsigned long long)tally.fired,
           (unsigned long long)tally.stopped);
    printf("%llu sheets with a loop: %llu with 0 solutions, %llu with 1, %llu with more\n",
           (unsigned long long)(cases - tally.loop_free),
           (unsigned long long)tally.with_loop[0],
           (unsigned long long)tally.with_loop[1],
           (unsigned long long)tally.with_loop[2]);
    printf("%llu passed, %llu failed\n",
           (unsigned long long)tally.passed,
           (unsigned long long)tally.failed);
    return tally.failed == 0 ? 0 : 1;
}
