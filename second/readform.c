/* The command read: many cases of a sheet and two lent tables, one result a case. */
#include "form.h"

#include <stdio.h>
#include <string.h>

/* Puts a whole read case: its head line, the sheet, a 0A. */
void put_read_case(struct text *out, const struct read_case *from, const uint8_t *sheet)
{
    text_hex(out, from->sheet_length, 8);
    put_next(out, from->periodic_length, 4);
    put_next(out, from->trigger_length, 4);
    put_next(out, from->fill, 2);
    text_byte(out, 0x0A);
    text_bytes(out, sheet, from->sheet_length);
    text_byte(out, 0x0A);
}

/* Takes a read case from standard input. */
static void take_read_case(struct read_case *to, uint8_t *sheet)
{
    to->sheet_length = (uint32_t)take_next(8, FORM_SHEET_MOST, ' ', "length of the sheet");
    to->periodic_length = take_periodic_length();
    to->trigger_length = take_trigger_length();
    to->fill = (uint8_t)take_next(2, 0xFF, 0x0A, "fill");
    form_bytes(sheet, to->sheet_length, "byte of the sheet");
    form_byte(0x0A, "end of the sheet");
}

/* Whether a range of bytes holds one value only. */
int all_bytes(const void *from, size_t length, uint8_t value)
{
    const uint8_t *bytes = from;
    size_t i;

    for (i = 0; i < length; i++) {
        if (bytes[i] != value) {
            return 0;
        }
    }
    return 1;
}

/* Whether a trigger's event and condition places past its counts are zero. */
static int unused_places_zero(const struct trigger *row)
{
    return all_bytes(row->events + row->event_count, (size_t)(BODY_MOST - row->event_count), 0)
        && all_bytes(row->conditions + row->condition_count,
                     (size_t)(BODY_MOST - row->condition_count), 0);
}

/* Whether everything past the used rows, and every unused place in them, is zero. */
static int rest_zero(const struct lent *lent, const struct sheet *sheet)
{
    uint32_t i;

    for (i = 0; i < sheet->trigger_count; i++) {
        if (!unused_places_zero(&lent->trigger[i])) {
            return 0;
        }
    }
    return all_bytes(lent->periodic + sheet->periodic_count,
                     (lent->periodic_length - sheet->periodic_count) * sizeof *lent->periodic, 0)
        && all_bytes(lent->trigger + sheet->trigger_count,
                     (lent->trigger_length - sheet->trigger_count) * sizeof *lent->trigger, 0);
}

/* Whether both tables hold the fill in every byte, as they did before. */
static int as_given(const struct lent *lent, uint8_t fill)
{
    return all_bytes(lent->periodic, lent->periodic_length * sizeof *lent->periodic, fill)
        && all_bytes(lent->trigger, lent->trigger_length * sizeof *lent->trigger, fill);
}

/* Puts the result of a read case as one line. */
static void put_read_result(struct text *out, struct answer found, const struct lent *lent,
                            const struct sheet *sheet, int mark)
{
    uint32_t i;

    put_answer(out, found);
    put_next(out, found.column, 8);
    put_next(out, sheet->role_count, 2);
    put_next(out, sheet->periodic_count, 2);
    put_next(out, sheet->trigger_count, 4);
    for (i = 0; i < sheet->periodic_count; i++) {
        text_byte(out, ' ');
        put_periodic_row(out, &lent->periodic[i]);
    }
    for (i = 0; i < sheet->trigger_count; i++) {
        text_byte(out, ' ');
        put_trigger_row(out, &lent->trigger[i]);
    }
    put_next(out, (uint64_t)mark, 1);
    text_byte(out, 0x0A);
}

/* Reads one case's sheet into tables that hold the fill, and prints the result. */
static void do_read_case(const struct read_case *given, const uint8_t *bytes)
{
    static struct periodic periodic[FORM_PERIODIC_MOST];
    static struct trigger trigger[FORM_TRIGGERS_MOST];
    static struct sheet sheet;
    static struct text out;
    struct lent lent;
    struct answer found;
    int mark;

    memset(periodic, given->fill, sizeof periodic);
    memset(trigger, given->fill, sizeof trigger);
    lent.periodic = periodic;
    lent.periodic_length = given->periodic_length;
    lent.trigger = trigger;
    lent.trigger_length = given->trigger_length;
    found = read_sheet(bytes, given->sheet_length, &lent, &sheet);
    if (found.number == OK) {
        mark = rest_zero(&lent, &sheet);
    } else {
        memset(&sheet, 0, sizeof sheet);
        mark = as_given(&lent, given->fill);
    }
    text_clear(&out);
    put_read_result(&out, found, &lent, &sheet, mark);
    text_print(&out);
}

/* The command read. */
int command_read(void)
{
    static uint8_t sheet[FORM_SHEET_MOST];
    struct read_case given;

    while (more_cases()) {
        take_read_case(&given, sheet);
        do_read_case(&given, sheet);
    }
    return 0;
}
