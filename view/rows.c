/*
 * The fields of frames. A frame is taken as far as it can be said in words; whether it passes is
 * not asked here.
 */
#include "rows.h"

/* A periodic row, if its period can be told. */
int periodic_of(const struct frame *frame, struct periodic *row)
{
    if (frame->length != 18 || frame->bytes[0] != PERIODIC) {
        return 0;
    }
    row->begin = number_at(frame, 1, 4);
    row->end = number_at(frame, 5, 4);
    row->period = number_at(frame, 9, 2);
    row->first = number_at(frame, 11, 2);
    row->run = number_at(frame, 13, 2);
    row->event = frame->bytes[15];
    row->priority = frame->bytes[16];
    return row->event < EVENTS && row->first < row->period && row->run >= 1
        && row->run <= row->period;
}

/* Takes so many numbers of a frame, each below EVENTS. */
static int numbers_of(const struct frame *frame, size_t at, unsigned count, unsigned *numbers)
{
    unsigned i;

    for (i = 0; i < count; i++) {
        numbers[i] = frame->bytes[at + i];
        if (numbers[i] >= EVENTS) {
            return 0;
        }
    }
    return 1;
}

/* A trigger. */
int trigger_of(const struct frame *frame, struct trigger *row)
{
    size_t at;

    if (frame->length < 3 || frame->bytes[0] != TRIGGER) {
        return 0;
    }
    row->event_count = frame->bytes[1];
    row->condition_count = frame->bytes[2];
    at = 3u + row->event_count + row->condition_count;
    if (row->event_count < 1 || row->event_count > BODY_MOST || row->condition_count > BODY_MOST
        || frame->length != at + 4) {
        return 0;
    }
    row->head = frame->bytes[at];
    row->priority = frame->bytes[at + 1];
    row->delay = frame->bytes[at + 2];
    return row->head < EVENTS && numbers_of(frame, 3, row->event_count, row->events)
        && numbers_of(frame, 3 + row->event_count, row->condition_count, row->conditions);
}

/* A request. */
int request_of(const struct frame *frame, struct request *request)
{
    if (frame->length != 9 || frame->bytes[0] != REQUEST_FRAME) {
        return 0;
    }
    request->minute = number_at(frame, 1, 4);
    request->event = frame->bytes[5];
    request->priority = frame->bytes[6];
    request->delay = frame->bytes[7];
    return request->event < EVENTS;
}

/* The counts of an end frame. */
int end_of(const struct frame *frame, struct end *end)
{
    if (frame->length != 5 || frame->bytes[0] != END) {
        return 0;
    }
    end->periodic_count = frame->bytes[1];
    end->trigger_count = number_at(frame, 2, 2);
    return 1;
}
