/* The command step: many cases of all that a public step takes, one result a case. */
#include "form.h"

#include <stdio.h>
#include <string.h>

/* How many numbers of a buffer are not zero. */
static uint32_t nonzero(const uint16_t *numbers, uint32_t length)
{
    uint32_t i, count = 0;

    for (i = 0; i < length; i++) {
        if (numbers[i] != 0) {
            count++;
        }
    }
    return count;
}

/* Puts the head line of a step case. */
static void put_step_head(struct text *out, const struct step_case *from)
{
    text_hex(out, from->tables.periodic_length, 4);
    put_next(out, from->tables.trigger_length, 4);
    put_next(out, from->waiting_length, 4);
    put_next(out, from->events_length, 4);
    put_next(out, from->tables.role_count, 8);
    put_next(out, from->tables.periodic_count, 8);
    put_next(out, from->tables.trigger_count, 8);
    put_next(out, from->instant, 8);
    put_next(out, from->roles, 16);
    put_next(out, from->fill, 4);
    put_next(out, from->tables.periodic_given, 4);
    put_next(out, from->tables.trigger_given, 4);
    put_next(out, nonzero(from->waiting, from->waiting_length), 4);
    put_next(out, from->request_count, 4);
    text_byte(out, 0x0A);
}

/*
 * Puts a whole step case: the head line, then the rows, waiting entries and requests, one a
 * line.
 */
void put_step_case(struct text *out, const struct step_case *from)
{
    uint32_t i;

    put_step_head(out, from);
    put_rows(out, &from->tables);
    for (i = 0; i < from->waiting_length; i++) {
        if (from->waiting[i] != 0) {
            text_hex(out, i / EVENTS, 2);
            text_hex(out, i % EVENTS, 2);
            text_hex(out, from->waiting[i], 4);
            text_byte(out, 0x0A);
        }
    }
    for (i = 0; i < from->request_count; i++) {
        text_hex(out, from->requests[i].event, 2);
        text_hex(out, from->requests[i].priority, 2);
        text_hex(out, from->requests[i].delay, 2);
        text_byte(out, 0x0A);
    }
}

/* Takes the head line of a step case; the number of waiting entries comes back. */
static uint32_t take_step_head(struct step_case *to)
{
    uint32_t entries;

    to->tables.periodic_length = take_periodic_length();
    to->tables.trigger_length = take_trigger_length();
    to->waiting_length = (uint32_t)take_next(4, FORM_WAITING_MOST, ' ', "length of the waiting buffer");
    to->events_length = (uint32_t)take_next(4, FORM_EVENTS_MOST, ' ', "length of the events buffer");
    take_counts(&to->tables);
    to->instant = (uint32_t)take_next(8, UINT32_MAX, ' ', "next instant");
    to->roles = take_next(16, UINT64_MAX, ' ', "enabled roles");
    to->fill = (uint16_t)take_next(4, UINT16_MAX, ' ', "fill");
    take_given(&to->tables, ' ');
    entries = (uint32_t)take_next(4, FORM_WAITING_MOST, ' ', "waiting entries given");
    to->request_count = (uint32_t)take_next(4, FORM_REQUESTS_MOST, 0x0A, "requests given");
    return entries;
}

/* Takes one waiting entry: row, event and set of priorities. */
static void take_waiting_entry(struct step_case *to)
{
    uint32_t row = (uint32_t)form_hex(2, UINT8_MAX, "waiting entry");
    uint32_t event = (uint32_t)form_hex(2, EVENTS - 1, "waiting entry");
    uint16_t mask = (uint16_t)take_next(4, UINT16_MAX, 0x0A, "waiting entry");

    if (row * EVENTS + event >= to->waiting_length) {
        bad_form("waiting entry past the waiting buffer");
    }
    to->waiting[row * EVENTS + event] = mask;
}

/* Takes a step case from standard input; what is not given is zero. */
static void take_step_case(struct step_case *to)
{
    uint32_t entries, i;

    memset(to, 0, sizeof *to);
    entries = take_step_head(to);
    take_rows(&to->tables);
    for (i = 0; i < entries; i++) {
        take_waiting_entry(to);
    }
    for (i = 0; i < to->request_count; i++) {
        to->requests[i].event = (uint8_t)form_hex(2, UINT8_MAX, "request");
        to->requests[i].priority = (uint8_t)form_hex(2, UINT8_MAX, "request");
        to->requests[i].delay = (uint8_t)take_next(2, UINT8_MAX, 0x0A, "request");
    }
}

/* Puts the result of a step case as one line. */
static void put_step_result(struct text *out, struct answer found, const struct state *state,
                            const uint16_t *events, uint32_t events_length)
{
    uint32_t i, waiting_length = (uint32_t)state->waiting_length;

    put_answer(out, found);
    put_next(out, state->instant, 8);
    put_next(out, state->roles, 16);
    put_next(out, nonzero(state->waiting, waiting_length), 4);
    for (i = 0; i < waiting_length; i++) {
        if (state->waiting[i] != 0) {
            put_next(out, i / EVENTS, 2);
            text_hex(out, i % EVENTS, 2);
            text_hex(out, state->waiting[i], 4);
        }
    }
    put_next(out, nonzero(events, events_length), 4);
    for (i = 0; i < events_length; i++) {
        if (events[i] != 0) {
            put_next(out, i, 2);
            text_hex(out, events[i], 4);
        }
    }
    text_byte(out, 0x0A);
}

/* Steps one case and prints the result. */
static void do_step_case(struct step_case *given)
{
    static uint16_t events[FORM_EVENTS_MOST];
    static struct text out;
    struct tables tables = tables_given(&given->tables);
    struct state state;
    struct requests requests;
    struct answer found;
    uint32_t i;

    state.instant = given->instant;
    state.roles = given->roles;
    state.waiting = given->waiting;
    state.waiting_length = given->waiting_length;
    requests.list = given->requests;
    requests.count = given->request_count;
    for (i = 0; i < given->events_length; i++) {
        events[i] = given->fill;
    }
    found = step(&tables, &state, events, given->events_length, &requests);
    text_clear(&out);
    put_step_result(&out, found, &state, events, given->events_length);
    text_print(&out);
}

/* The command step. */
int command_step(void)
{
    static struct step_case given;

    while (more_cases()) {
        take_step_case(&given);
        do_step_case(&given);
    }
    return 0;
}
