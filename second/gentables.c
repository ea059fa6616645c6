/* Lent tables of cases: the rows of a book, junk in what is unused, and what may be spoiled. */
#include "gen.h"

#include <string.h>

/* The rows of a book, at most 128 and 256 of them given, in tables of exact length. */
void table_case_of(struct table_case *to, const struct book *book)
{
    memset(to, 0, sizeof *to);
    to->periodic_length = PERIODIC_MOST;
    to->trigger_length = TRIGGERS_MOST;
    to->role_count = book->role_count;
    to->periodic_count = book->periodic_count;
    to->trigger_count = book->trigger_count;
    to->periodic_given = to->periodic_count > PERIODIC_MOST ? PERIODIC_MOST : to->periodic_count;
    to->trigger_given = to->trigger_count > TRIGGERS_MOST ? TRIGGERS_MOST : to->trigger_count;
    memcpy(to->periodic, book->periodic, to->periodic_given * sizeof *to->periodic);
    memcpy(to->trigger, book->trigger, to->trigger_given * sizeof *to->trigger);
}

/* Fills any bytes into a periodic row. */
static void junk_periodic(struct dice *dice, struct periodic *row)
{
    row->begin = dice_number(dice);
    row->end = dice_number(dice);
    row->period = (uint16_t)dice_number(dice);
    row->first = (uint16_t)dice_number(dice);
    row->run = (uint16_t)dice_number(dice);
    row->event = (uint8_t)dice_number(dice);
    row->priority = (uint8_t)dice_number(dice);
}

/* Fills any bytes into a trigger row. */
static void junk_trigger(struct dice *dice, struct trigger *row)
{
    unsigned i;

    row->event_count = (uint8_t)(chance(dice, 50) ? below(dice, 6) : dice_number(dice));
    row->condition_count = (uint8_t)(chance(dice, 50) ? below(dice, 6) : dice_number(dice));
    for (i = 0; i < BODY_MOST; i++) {
        row->events[i] = (uint8_t)dice_number(dice);
        row->conditions[i] = (uint8_t)dice_number(dice);
    }
    row->head = (uint8_t)dice_number(dice);
    row->priority = (uint8_t)dice_number(dice);
    row->delay = (uint8_t)dice_number(dice);
}

/* Puts one value into the unused places of a trigger whose counts are right. */
void set_unused_places(struct trigger *row, uint8_t value)
{
    memset(row->events + row->event_count, value, (size_t)(BODY_MOST - row->event_count));
    memset(row->conditions + row->condition_count, value,
           (size_t)(BODY_MOST - row->condition_count));
}

/* Puts junk into unused rows and into the unused places of used triggers. */
void junk_unused(struct dice *dice, struct table_case *to)
{
    uint32_t i;
    unsigned k;

    for (i = 0; i < to->trigger_count; i++) {
        for (k = to->trigger[i].event_count; k < BODY_MOST; k++) {
            to->trigger[i].events[k] = (uint8_t)dice_number(dice);
        }
        for (k = to->trigger[i].condition_count; k < BODY_MOST; k++) {
            to->trigger[i].conditions[k] = (uint8_t)dice_number(dice);
        }
    }
    while (to->periodic_given < PERIODIC_MOST && chance(dice, 75)) {
        junk_periodic(dice, &to->periodic[to->periodic_given++]);
    }
    while (to->trigger_given < TRIGGERS_MOST && chance(dice, 75)) {
        junk_trigger(dice, &to->trigger[to->trigger_given++]);
    }
}

/* Rows that are given past the length of their table go. */
void trim_rows(struct table_case *to)
{
    if (to->periodic_given > to->periodic_length) {
        to->periodic_given = to->periodic_length;
    }
    if (to->trigger_given > to->trigger_length) {
        to->trigger_given = to->trigger_length;
    }
}

/* Makes a trigger a loop by itself: "enable a role gives disable it", with delay 0. */
static void loop_row(struct dice *dice, struct trigger *row, unsigned role)
{
    row->event_count = 1;
    row->events[0] = (uint8_t)(2 * role + 1);
    row->head = (uint8_t)(2 * role);
    row->priority = (uint8_t)below(dice, PRIORITIES);
    row->delay = 0;
}

/* Puts a loop of one or two triggers in place of used rows. */
void spoil_loop(struct dice *dice, struct table_case *to)
{
    unsigned role = below(dice, to->role_count > ROLES_MOST ? ROLES_MOST : to->role_count);
    uint32_t at;

    if (to->trigger_count == 0 || to->trigger_count > to->trigger_given) {
        return;
    }
    at = below(dice, to->trigger_count);
    loop_row(dice, &to->trigger[at], role);
}

/* Gives a loop of one trigger after the rows given, if there is room. */
void give_loop(struct dice *dice, struct table_case *to)
{
    if (to->trigger_given < TRIGGERS_MOST) {
        loop_row(dice, &to->trigger[to->trigger_given], below(dice, to->role_count));
        to->trigger_given++;
    }
}

/*
 * Puts junk into a used row, brings one of its fields over a limit, or counts rows that are not
 * given.
 */
void spoil_row(struct dice *dice, struct table_case *to, uint32_t which)
{
    uint32_t at;

    if (which == 4) {
        to->periodic_count = between(dice, to->periodic_given, PERIODIC_MOST);
    } else if (which == 5) {
        to->trigger_count = between(dice, to->trigger_given, TRIGGERS_MOST);
    } else if (which < 2 && to->periodic_given > 0) {
        at = below(dice, to->periodic_given);
        if (which == 0) {
            junk_periodic(dice, &to->periodic[at]);
        } else {
            to->periodic[at].priority = 16;
        }
    } else if (to->trigger_given > 0) {
        at = below(dice, to->trigger_given);
        if (which == 2) {
            junk_trigger(dice, &to->trigger[at]);
        } else {
            to->trigger[at].delay = 61;
        }
    }
}
