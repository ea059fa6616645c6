/* The screen of document 02 [2]: the faulty line as a part of the sheet or of the tape. */
#include "second.h"

/* Whether the place of an answer is a line. */
static int place_is_line(unsigned number)
{
    switch (number) {
    case FRAME:
    case CHECK:
    case KIND:
    case FIELD:
    case TOO_MANY:
    case COUNT:
    case REQUEST:
        return 1;
    default:
        return 0;
    }
}

/* Looks for a line by its number, without its 0A; 0 when the walk ends before it. */
static int find_line(struct cursor *cursor, uint32_t number, struct shown *shown)
{
    struct line line;

    while (next_line(cursor, &line)) {
        if (cursor->line - 1 == number) {
            shown->from = (size_t)(line.bytes - cursor->bytes);
            shown->to = shown->from + line.length;
            return 1;
        }
    }
    return 0;
}

/*
 * The line that an answer names, lines counted from 1 through the sheet and on through the tape;
 * the empty part at the tape's end when it names none or one that neither has.
 */
struct shown faulty_line(const uint8_t *sheet, size_t sheet_length,
                         const uint8_t *tape, size_t tape_length, struct answer found)
{
    struct cursor in_sheet = cursor_at(sheet, sheet_length, 1), in_tape;
    struct shown shown;

    shown.of_tape = 0;
    if (place_is_line(found.number) && find_line(&in_sheet, found.place, &shown)) {
        return shown;
    }
    shown.of_tape = 1;
    in_tape = cursor_at(tape, tape_length, in_sheet.line);
    if (place_is_line(found.number) && find_line(&in_tape, found.place, &shown)) {
        return shown;
    }
    shown.from = tape_length;
    shown.to = tape_length;
    return shown;
}
