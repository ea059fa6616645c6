/* The reader of a sheet. */
#include "second.h"

#include <string.h>

/* KIND: known, of the right byte count, and in its place: the header on line 1 and only there. */
static int kind_right(const struct frame *frame, uint32_t number)
{
    unsigned kind = frame->bytes[0];

    if (number == 1) {
        return kind == 0x10 && frame->length == 4;
    }
    switch (kind) {
    case 0x20:
        return frame->length == 18;
    case 0x30:
        return frame->length >= 3
            && frame->length == 7u + frame->bytes[1] + frame->bytes[2];
    case 0xF0:
        return frame->length == 5;
    default:
        return 0;
    }
}

/* Takes a header: version 01, role count 1 to 64. */
static struct answer take_header(struct sheet *sheet, const struct frame *frame, uint32_t number)
{
    sheet->role_count = frame->bytes[ROLES_AT];
    return field_answer(number, bad_header(frame->bytes[VERSION_AT], sheet->role_count));
}

/* Takes a periodic row: TOO MANY over the limit, then FIELD. */
static struct answer take_periodic(struct sheet *sheet, const struct frame *frame, uint32_t number)
{
    struct periodic row;
    unsigned bad;

    if (sheet->periodic_count >= PERIODIC_MOST) {
        return answer(TOO_MANY, number);
    }
    row.begin = number_at(frame, BEGIN_AT, 4);
    row.end = number_at(frame, END_AT, 4);
    row.period = (uint16_t)number_at(frame, PERIOD_AT, 2);
    row.first = (uint16_t)number_at(frame, FIRST_AT, 2);
    row.run = (uint16_t)number_at(frame, RUN_AT, 2);
    row.event = frame->bytes[EVENT_AT];
    row.priority = frame->bytes[PRIORITY_AT];
    bad = bad_periodic(&row, sheet->role_count);
    if (bad == 0) {
        sheet->periodic[sheet->periodic_count] = row;
        sheet->periodic_count++;
    }
    return field_answer(number, bad);
}

/* Takes the fields of a trigger frame; of one whose counts are over the limit only these. */
static void take_row(struct trigger *row, const struct frame *frame)
{
    size_t at = BODY_AT;

    memset(row, 0, sizeof *row);
    row->event_count = frame->bytes[EVENT_COUNT_AT];
    row->condition_count = frame->bytes[CONDITION_COUNT_AT];
    if (row->event_count > BODY_MOST || row->condition_count > BODY_MOST) {
        return;
    }
    memcpy(row->events, frame->bytes + at, row->event_count);
    at += row->event_count;
    memcpy(row->conditions, frame->bytes + at, row->condition_count);
    at += row->condition_count;
    row->head = frame->bytes[at];
    row->priority = frame->bytes[at + 1];
    row->delay = frame->bytes[at + 2];
}

/* Takes a trigger: TOO MANY over the limit, then FIELD. */
static struct answer take_trigger(struct sheet *sheet, const struct frame *frame, uint32_t number)
{
    struct trigger row;
    unsigned bad;

    if (sheet->trigger_count >= TRIGGERS_MOST) {
        return answer(TOO_MANY, number);
    }
    take_row(&row, frame);
    bad = bad_trigger(&row, sheet->role_count);
    if (bad == 0) {
        sheet->trigger[sheet->trigger_count] = row;
        sheet->trigger_count++;
    }
    return field_answer(number, bad);
}

/* Takes the end frame: COUNT when its counts differ from the rows taken. */
static struct answer take_end(const struct sheet *sheet, const struct frame *frame, uint32_t number)
{
    if (number_at(frame, 1, 1) != sheet->periodic_count
        || number_at(frame, 2, 2) != sheet->trigger_count) {
        return answer(COUNT, number);
    }
    return answer(OK, 0);
}

/* Tests one line of a sheet: FRAME, CHECK, KIND, TOO MANY, FIELD, COUNT. */
static struct answer take_line(struct sheet *sheet, const struct line *line,
                               uint32_t number, int *ended)
{
    struct frame frame;
    struct answer found = frame_and_check(line, number, &frame);

    if (found.number != OK) {
        return found;
    }
    if (*ended || !kind_right(&frame, number)) {
        return answer(KIND, number);
    }
    switch (frame.bytes[0]) {
    case 0x10:
        return take_header(sheet, &frame, number);
    case 0x20:
        return take_periodic(sheet, &frame, number);
    case 0x30:
        return take_trigger(sheet, &frame, number);
    default:
        *ended = 1;
        return take_end(sheet, &frame, number);
    }
}

/* Tests the lines from 1, a missing end as KIND at the line after the last, and then LOOP. */
static struct answer take_lines(struct sheet *sheet, const uint8_t *bytes, size_t length)
{
    struct cursor cursor = cursor_at(bytes, length, 1);
    struct line line;
    struct answer found;
    uint32_t number = cursor.line;
    int ended = 0;

    memset(sheet, 0, sizeof *sheet);
    while (next_line(&cursor, &line)) {
        found = take_line(sheet, &line, number, &ended);
        if (found.number != OK) {
            return found;
        }
        number = cursor.line;
    }
    if (!ended) {
        return answer(KIND, number);
    }
    return loop_test(sheet->trigger, sheet->trigger_count);
}

/*
 * The reader: LENGTH, the lines, LOOP; on success the lent tables hold the rows in sheet order
 * and are otherwise zero, after a refusal they are as given.
 */
struct answer read_sheet(const uint8_t *bytes, size_t length,
                         const struct lent *lent, struct sheet *sheet)
{
    struct answer found;

    if (length > SHEET_MOST || lent->periodic_length != PERIODIC_MOST
        || lent->trigger_length != TRIGGERS_MOST) {
        return answer(LENGTH, 0);
    }
    found = take_lines(sheet, bytes, length);
    if (found.number != OK) {
        return found;
    }
    memcpy(lent->periodic, sheet->periodic, sizeof sheet->periodic);
    memcpy(lent->trigger, sheet->trigger, sizeof sheet->trigger);
    return answer(OK, 0);
}
