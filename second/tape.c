/* The tape of the day program. */
#include "second.h"

/* KIND: a request 40 of 9 bytes or the end F1 of 6 bytes. */
static int kind_right(const struct frame *frame)
{
    return (frame->bytes[0] == 0x40 && frame->length == 9)
        || (frame->bytes[0] == 0xF1 && frame->length == 6);
}

/* How many requests at the end of the tape so far are in a row of this one instant. */
static size_t in_a_row(const struct tape *tape, uint32_t instant)
{
    size_t count = 0;

    while (count < tape->count && tape->instants[tape->count - 1 - count] == instant) {
        count++;
    }
    return count;
}

/* Takes a request: TOO MANY for a 33rd in a row, FIELD below the instant before, REQUEST. */
static struct answer take_request(struct tape *tape, const struct frame *frame,
                                  uint32_t number, uint32_t role_count)
{
    uint32_t instant = number_at(frame, INSTANT_AT, 4);
    struct request request;

    request.event = frame->bytes[5];
    request.priority = frame->bytes[6];
    request.delay = frame->bytes[7];
    if (in_a_row(tape, instant) >= REQUESTS_MOST) {
        return answer(TOO_MANY, number);
    }
    if (tape->count > 0 && instant < tape->instants[tape->count - 1]) {
        return field_answer(number, INSTANT_AT);
    }
    if (!request_right(&request, role_count)) {
        return answer(REQUEST, number);
    }
    tape->instants[tape->count] = instant;
    tape->requests[tape->count] = request;
    tape->count++;
    return answer(OK, 0);
}

/* Takes F1: FIELD when the last instant is over 10,080 or below the last request's. */
static struct answer take_last(struct tape *tape, const struct frame *frame, uint32_t number)
{
    tape->last = number_at(frame, INSTANT_AT, 4);
    if (tape->last > DAY_LAST_MOST) {
        return field_answer(number, INSTANT_AT);
    }
    if (tape->count > 0 && tape->last < tape->instants[tape->count - 1]) {
        return field_answer(number, INSTANT_AT);
    }
    return answer(OK, 0);
}

/* Tests one line of a tape: FRAME, CHECK, KIND, TOO MANY, FIELD, REQUEST. */
static struct answer take_line(struct tape *tape, const struct line *line, uint32_t number,
                               uint32_t role_count, int *ended)
{
    struct frame frame;
    struct answer found = frame_and_check(line, number, &frame);

    if (found.number != OK) {
        return found;
    }
    if (*ended || !kind_right(&frame)) {
        return answer(KIND, number);
    }
    if (frame.bytes[0] == 0x40) {
        return take_request(tape, &frame, number, role_count);
    }
    *ended = 1;
    return take_last(tape, &frame, number);
}

/*
 * Reads the tape, whose first line has the given number in the whole input; a missing F1 is KIND
 * at the line after the last.
 */
struct answer read_tape(const uint8_t *bytes, size_t length, uint32_t first_line,
                        uint32_t role_count, struct tape *tape)
{
    struct cursor cursor = cursor_at(bytes, length, first_line);
    struct line line;
    struct answer found;
    uint32_t number = cursor.line;
    int ended = 0;

    tape->count = 0;
    tape->last = 0;
    while (next_line(&cursor, &line)) {
        found = take_line(tape, &line, number, role_count, &ended);
        if (found.number != OK) {
            return found;
        }
        number = cursor.line;
    }
    return ended ? answer(OK, 0) : answer(KIND, number);
}
