/* The day program. */
#include "second.h"

#include <stdio.h>
#include <stdlib.h>
#include <string.h>

/*
 * One line for an instant: 50, instant 4, enabled roles after it 8, count of events with a
 * nonblocked member 1, check.
 */
static void put_instant(struct text *out, uint32_t instant, uint64_t roles, const uint16_t *events)
{
    uint8_t bytes[14];
    struct set set;
    unsigned i;

    memcpy(set.priorities, events, sizeof set.priorities);
    bytes[0] = 0x50;
    for (i = 0; i < 4; i++) {
        bytes[1 + i] = (uint8_t)(instant >> (24 - 8 * i));
    }
    for (i = 0; i < 8; i++) {
        bytes[5 + i] = (uint8_t)(roles >> (56 - 8 * i));
    }
    bytes[13] = (uint8_t)nonblocked_events(&set);
    text_frame(out, bytes, sizeof bytes);
}

/* Steps the instants 0 to last from the fresh state and prints a line for each. */
static void run(const struct tables *tables, const struct tape *tape, struct text *out)
{
    static uint16_t waiting[WAITING_LENGTH];
    uint16_t events[EVENTS];
    struct state state;
    struct requests requests;
    size_t next = 0;
    uint32_t t;

    memset(waiting, 0, sizeof waiting);
    state.instant = 0;
    state.roles = 0;
    state.waiting = waiting;
    state.waiting_length = WAITING_LENGTH;
    for (t = 0; t <= tape->last; t++) {
        requests.list = tape->requests + next;
        requests.count = 0;
        while (next < tape->count && tape->instants[next] == t) {
            requests.count++;
            next++;
        }
        if (step(tables, &state, events, EVENTS, &requests).number != OK) {
            fprintf(stderr, "second: a step of a tested day was refused\n");
            abort();
        }
        put_instant(out, t, state.roles, events);
    }
}

/* The whole sheet is tested first, LOOP included, then the tape, all before the first instant. */
static struct answer test_input(const uint8_t *input, size_t length, const struct lent *lent,
                                struct sheet *sheet, struct tape *tape)
{
    struct part part;
    struct answer found = test_sheet(input, length, lent, sheet, &part);

    if (found.number != OK) {
        return found;
    }
    return read_tape(input + part.length, length - part.length, part.lines + 1,
                     sheet->role_count, tape);
}

/* The day program on a whole input: a refusal, or one line for each instant. */
void day(const uint8_t *input, size_t length, struct text *out)
{
    static struct periodic periodic[PERIODIC_MOST];
    static struct trigger trigger[TRIGGERS_MOST];
    static struct sheet sheet;
    static struct tape tape;
    struct lent lent;
    struct tables tables;
    struct answer found;

    lent.periodic = periodic;
    lent.periodic_length = PERIODIC_MOST;
    lent.trigger = trigger;
    lent.trigger_length = TRIGGERS_MOST;
    text_clear(out);
    found = test_input(input, length, &lent, &sheet, &tape);
    if (found.number != OK) {
        put_refusal(out, found);
        return;
    }
    tables = tables_of(&sheet, &lent);
    run(&tables, &tape, out);
}

/* The command day: standard input to standard output. */
int command_day(void)
{
    static uint8_t input[INPUT_MOST + 1];
    static struct text out;

    day(input, take_input(input), &out);
    text_print(&out);
    return 0;
}
