/* Good rows, good tapes and good books of them. */
#include "gen.h"

#include <string.h>

/* A role below the role count: often one of the first four, at times the last. */
static unsigned any_role(struct dice *dice, uint32_t role_count)
{
    uint32_t way = below(dice, 10);

    if (way < 6 && role_count > 4) {
        return below(dice, 4);
    }
    if (way == 6) {
        return role_count - 1;
    }
    return below(dice, role_count);
}

/* An event below twice the role count; conditions are numbered alike. */
unsigned any_event(struct dice *dice, uint32_t role_count)
{
    unsigned role = any_role(dice, role_count);

    return 2 * role + below(dice, 2);
}

/* A priority, at times the lowest or the highest. */
static uint8_t any_priority(struct dice *dice)
{
    uint32_t way = below(dice, 6);

    if (way == 0) {
        return 0;
    }
    if (way == 1) {
        return 15;
    }
    return (uint8_t)(way == 2 ? between(dice, 5, 7) : below(dice, PRIORITIES));
}

/* A period: mostly short, at times of any length. */
static uint16_t any_period(struct dice *dice)
{
    uint32_t way = below(dice, 10);

    if (way < 6) {
        return (uint16_t)between(dice, 1, 12);
    }
    if (way < 9) {
        return (uint16_t)between(dice, 1, 100);
    }
    return (uint16_t)between(dice, 1, PERIOD_MOST);
}

/* An instant at most 16,777,215 that is near another or anywhere. */
static uint32_t any_instant(struct dice *dice, uint32_t around)
{
    uint32_t way = below(dice, 4), shift = below(dice, 60), instant = around;

    if (way == 0) {
        instant = around + shift;
    } else if (way == 1) {
        instant = around > shift ? around - shift : 0;
    } else if (way == 2) {
        instant = dice_number(dice);
    }
    return instant > INSTANT_MOST ? INSTANT_MOST : instant;
}

/* A periodic row with every field inside its limit, its window mostly open around an instant. */
void good_periodic(struct dice *dice, struct periodic *row, uint32_t role_count, uint32_t around)
{
    uint32_t other;

    row->begin = chance(dice, 50) ? 0 : any_instant(dice, around);
    if (row->begin > around && chance(dice, 70)) {
        row->begin = around;
    }
    row->end = NO_END;
    if (chance(dice, 50)) {
        other = any_instant(dice, around);
        row->end = other < row->begin ? row->begin : other;
    }
    row->period = any_period(dice);
    row->first = (uint16_t)below(dice, row->period);
    row->run = (uint16_t)between(dice, 1, row->period);
    if (chance(dice, 40)) {
        row->run = 1;
    }
    row->event = (uint8_t)any_event(dice, role_count);
    row->priority = any_priority(dice);
}

/* Body events, with repeats at times. */
static void good_body(struct dice *dice, struct trigger *row, uint32_t role_count)
{
    unsigned i;

    row->event_count = (uint8_t)(chance(dice, 60) ? 1 : between(dice, 1, BODY_MOST));
    for (i = 0; i < row->event_count; i++) {
        row->events[i] = (uint8_t)any_event(dice, role_count);
        if (i > 0 && chance(dice, 20)) {
            row->events[i] = row->events[i - 1];
        }
    }
}

/* Conditions, at times repeated or contradicting. */
static void good_conditions(struct dice *dice, struct trigger *row, uint32_t role_count)
{
    unsigned i;

    row->condition_count = (uint8_t)(chance(dice, 60) ? 0 : between(dice, 0, BODY_MOST));
    for (i = 0; i < row->condition_count; i++) {
        row->conditions[i] = (uint8_t)any_event(dice, role_count);
        if (i > 0 && chance(dice, 15)) {
            row->conditions[i] = (uint8_t)(row->conditions[i - 1] ^ below(dice, 2));
        }
    }
}

/* A trigger with every field inside its limit and unused places zero. */
void good_trigger(struct dice *dice, struct trigger *row, uint32_t role_count)
{
    memset(row, 0, sizeof *row);
    good_body(dice, row, role_count);
    good_conditions(dice, row, role_count);
    row->head = (uint8_t)any_event(dice, role_count);
    row->priority = any_priority(dice);
    if (chance(dice, 35)) {
        row->delay = (uint8_t)(chance(dice, 60) ? between(dice, 1, 5) : between(dice, 1, DELAY_MOST));
    }
}

/* A request inside its limits. */
struct request good_request(struct dice *dice, uint32_t role_count)
{
    struct request request;

    request.event = (uint8_t)any_event(dice, role_count);
    request.priority = any_priority(dice);
    request.delay = 0;
    if (chance(dice, 40)) {
        request.delay = (uint8_t)(chance(dice, 50) ? between(dice, 1, 5) : between(dice, 1, DELAY_MOST));
    }
    return request;
}

/* Takes loops away: each trigger that draws the - edge found is made a delayed one. */
void make_loop_free(struct dice *dice, struct trigger *trigger, uint32_t count)
{
    struct answer found = loop_test(trigger, count);
    unsigned from, to, k;
    uint32_t i;

    while (found.number == LOOP) {
        from = found.place / 128;
        to = found.place % 128;
        for (i = 0; i < count; i++) {
            for (k = 0; k < trigger[i].event_count; k++) {
                if (trigger[i].delay == 0 && trigger[i].head == to
                    && trigger[i].events[k] == conf(from)) {
                    trigger[i].delay = (uint8_t)between(dice, 1, DELAY_MOST);
                }
            }
        }
        found = loop_test(trigger, count);
    }
}

/* Lets the end frame say the right counts. */
void say_counts(struct book *book)
{
    book->end_periodic = book->periodic_count;
    book->end_trigger = book->trigger_count;
}

/* A tape of some requests, at times 32 at an instant, over a span of instants. */
void good_tape(struct dice *dice, struct book *book, uint32_t span)
{
    struct tape *tape = &book->tape;
    uint32_t t = 0, i, burst;
    uint32_t busy = between(dice, 1, 60);

    tape->count = 0;
    for (t = 0; t < span; t++) {
        if (!chance(dice, busy) || tape->count + REQUESTS_MOST > TAPE_MOST) {
            continue;
        }
        burst = chance(dice, 3) ? between(dice, 31, 32) : between(dice, 1, 3);
        for (i = 0; i < burst; i++) {
            tape->instants[tape->count] = t;
            tape->requests[tape->count] = good_request(dice, book->role_count);
            tape->count++;
        }
    }
    tape->last = span;
    if (tape->count > 0 && chance(dice, 20)) {
        tape->last = tape->instants[tape->count - 1];
    }
}

/* An empty book with a role count. */
static void start_book(struct dice *dice, struct book *book)
{
    uint32_t way = below(dice, 10);

    memset(book, 0, sizeof *book);
    book->version = 1;
    book->role_count = between(dice, 2, 8);
    if (way == 0) {
        book->role_count = 1;
    } else if (way == 1) {
        book->role_count = 64;
    } else if (way < 4) {
        book->role_count = between(dice, 1, 64);
    }
}

/* So many good periodic rows, mostly for instants below 100. */
void add_periodic_rows(struct dice *dice, struct book *book, uint32_t count)
{
    uint32_t i;

    for (i = 0; i < count; i++) {
        good_periodic(dice, &book->periodic[book->periodic_count], book->role_count, below(dice, 100));
        book->periodic_count++;
    }
}

/* The span of a day: mostly short. */
static uint32_t any_span(struct dice *dice)
{
    return chance(dice, 60) ? below(dice, 60) : below(dice, 200);
}

/* A good book of a shape: few rows and a short tape. */
void shaped_book(struct dice *dice, struct book *book, enum shape shape)
{
    uint32_t periodic, triggers;

    start_book(dice, book);
    if (shape >= CHAIN && shape <= LADDER && chance(dice, 30)) {
        book->role_count = between(dice, 32, 64);
    }
    periodic = below(dice, 12);
    triggers = below(dice, 16);
    add_periodic_rows(dice, book, periodic);
    shape_triggers(dice, book, shape, triggers);
    say_counts(book);
    good_tape(dice, book, any_span(dice));
}

/* A good book of any shape that has no loop. */
void good_book(struct dice *dice, struct book *book)
{
    shaped_book(dice, book, (enum shape)below(dice, TANGLE));
}

/*
 * A good book near every limit: 64 roles, up to 128 periodic rows and 256 triggers, bursts of 32
 * requests.
 */
void dense_book(struct dice *dice, struct book *book)
{
    uint32_t triggers, i;

    start_book(dice, book);
    book->role_count = chance(dice, 80) ? 64 : between(dice, 60, 64);
    add_periodic_rows(dice, book, chance(dice, 50) ? 128 : between(dice, 120, 128));
    triggers = chance(dice, 50) ? 256 : between(dice, 240, 256);
    shape_triggers(dice, book, (enum shape)below(dice, TANGLE), triggers);
    shape_triggers(dice, book, MIXED, triggers);
    for (i = 0; i < book->trigger_count; i++) {
        if (chance(dice, 10)) {
            book->trigger[i].priority = 15;
        }
    }
    say_counts(book);
    good_tape(dice, book, below(dice, 40));
}

/* A book for damage: mostly a good one, at times one with loops. */
void book_for_damage(struct dice *dice, struct book *book)
{
    if (chance(dice, 80)) {
        good_book(dice, book);
    } else {
        shaped_book(dice, book, TANGLE);
    }
}
