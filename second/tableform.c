/* Rows and tables in the neutral form, which the commands read, step and write have in common. */
#include "form.h"

/* Puts a blank and a number. */
void put_next(struct text *out, uint64_t value, unsigned digits)
{
    text_byte(out, ' ');
    text_hex(out, value, digits);
}

/* Puts an answer: its number and its place. */
void put_answer(struct text *out, struct answer found)
{
    text_hex(out, found.number, 2);
    put_next(out, found.place, 8);
}

/* Puts a periodic row, 16 bytes in frame order. */
void put_periodic_row(struct text *out, const struct periodic *row)
{
    text_hex(out, row->begin, 8);
    text_hex(out, row->end, 8);
    text_hex(out, row->period, 4);
    text_hex(out, row->first, 4);
    text_hex(out, row->run, 4);
    text_hex(out, row->event, 2);
    text_hex(out, row->priority, 2);
}

/* Puts a trigger row, 13 bytes: counts, event places, condition places, head, priority, delay. */
void put_trigger_row(struct text *out, const struct trigger *row)
{
    unsigned i;

    text_hex(out, row->event_count, 2);
    text_hex(out, row->condition_count, 2);
    for (i = 0; i < BODY_MOST; i++) {
        text_hex(out, row->events[i], 2);
    }
    for (i = 0; i < BODY_MOST; i++) {
        text_hex(out, row->conditions[i], 2);
    }
    text_hex(out, row->head, 2);
    text_hex(out, row->priority, 2);
    text_hex(out, row->delay, 2);
}

/* Puts the rows given of both tables, one a line. */
void put_rows(struct text *out, const struct table_case *from)
{
    uint32_t i;

    for (i = 0; i < from->periodic_given; i++) {
        put_periodic_row(out, &from->periodic[i]);
        text_byte(out, 0x0A);
    }
    for (i = 0; i < from->trigger_given; i++) {
        put_trigger_row(out, &from->trigger[i]);
        text_byte(out, 0x0A);
    }
}

/* Puts tables: their head line and their rows. */
void put_tables(struct text *out, const struct table_case *from)
{
    text_hex(out, from->periodic_length, 4);
    put_next(out, from->trigger_length, 4);
    put_next(out, from->role_count, 8);
    put_next(out, from->periodic_count, 8);
    put_next(out, from->trigger_count, 8);
    put_next(out, from->periodic_given, 4);
    put_next(out, from->trigger_given, 4);
    text_byte(out, 0x0A);
    put_rows(out, from);
}

/* Takes a number that is followed by a given byte. */
uint64_t take_next(unsigned digits, uint64_t most, unsigned after, const char *what)
{
    uint64_t value = form_hex(digits, most, what);

    form_byte(after, what);
    return value;
}

/* Takes the length of the periodic table and a blank. */
uint32_t take_periodic_length(void)
{
    return (uint32_t)take_next(4, FORM_PERIODIC_MOST, ' ', "length of the periodic table");
}

/* Takes the length of the trigger table and a blank. */
uint32_t take_trigger_length(void)
{
    return (uint32_t)take_next(4, FORM_TRIGGERS_MOST, ' ', "length of the trigger table");
}

/* Takes the role count and the counts of both tables, a blank after each. */
void take_counts(struct table_case *to)
{
    to->role_count = (uint32_t)take_next(8, UINT32_MAX, ' ', "role count");
    to->periodic_count = (uint32_t)take_next(8, UINT32_MAX, ' ', "periodic count");
    to->trigger_count = (uint32_t)take_next(8, UINT32_MAX, ' ', "trigger count");
}

/* Takes how many rows of each table are given, the last number followed by a given byte. */
void take_given(struct table_case *to, unsigned after)
{
    to->periodic_given = (uint32_t)take_next(4, to->periodic_length, ' ', "periodic rows given");
    to->trigger_given = (uint32_t)take_next(4, to->trigger_length, after, "triggers given");
}

/* Takes a periodic row, 16 bytes in frame order. */
static void take_periodic_row(struct periodic *row)
{
    row->begin = (uint32_t)form_hex(8, UINT32_MAX, "periodic row");
    row->end = (uint32_t)form_hex(8, UINT32_MAX, "periodic row");
    row->period = (uint16_t)form_hex(4, UINT16_MAX, "periodic row");
    row->first = (uint16_t)form_hex(4, UINT16_MAX, "periodic row");
    row->run = (uint16_t)form_hex(4, UINT16_MAX, "periodic row");
    row->event = (uint8_t)form_hex(2, UINT8_MAX, "periodic row");
    row->priority = (uint8_t)take_next(2, UINT8_MAX, 0x0A, "periodic row");
}

/* Takes a trigger row, 13 bytes. */
static void take_trigger_row(struct trigger *row)
{
    unsigned i;

    row->event_count = (uint8_t)form_hex(2, UINT8_MAX, "trigger row");
    row->condition_count = (uint8_t)form_hex(2, UINT8_MAX, "trigger row");
    for (i = 0; i < BODY_MOST; i++) {
        row->events[i] = (uint8_t)form_hex(2, UINT8_MAX, "trigger row");
    }
    for (i = 0; i < BODY_MOST; i++) {
        row->conditions[i] = (uint8_t)form_hex(2, UINT8_MAX, "trigger row");
    }
    row->head = (uint8_t)form_hex(2, UINT8_MAX, "trigger row");
    row->priority = (uint8_t)form_hex(2, UINT8_MAX, "trigger row");
    row->delay = (uint8_t)take_next(2, UINT8_MAX, 0x0A, "trigger row");
}

/* Takes the rows given of both tables. */
void take_rows(struct table_case *to)
{
    uint32_t i;

    for (i = 0; i < to->periodic_given; i++) {
        take_periodic_row(&to->periodic[i]);
    }
    for (i = 0; i < to->trigger_given; i++) {
        take_trigger_row(&to->trigger[i]);
    }
}

/* Takes tables: their head line and their rows. */
void take_tables(struct table_case *to)
{
    to->periodic_length = take_periodic_length();
    to->trigger_length = take_trigger_length();
    take_counts(to);
    take_given(to, 0x0A);
    take_rows(to);
}

/* The tables of a case as a step and the writer take them. */
struct tables tables_given(const struct table_case *given)
{
    struct tables tables;

    tables.periodic = given->periodic;
    tables.periodic_length = given->periodic_length;
    tables.trigger = given->trigger;
    tables.trigger_length = given->trigger_length;
    tables.role_count = given->role_count;
    tables.periodic_count = given->periodic_count;
    tables.trigger_count = given->trigger_count;
    return tables;
}
