/* The frame of each kind of sentence. Numbers that fit their fields are put there as they are. */
#include "sentences.h"

enum { BYTE_MOST = 0xFF };

/* Puts a number of so many bytes to the end of a frame, high byte first. */
static void put(struct frame *frame, uint32_t number, unsigned bytes)
{
    for (; bytes > 0; bytes--) {
        frame->bytes[frame->length] = (uint8_t)(number >> 8 * (bytes - 1));
        frame->length++;
    }
}

/* The header. */
int frame_of_header(struct reading *reading, struct frame *frame)
{
    uint32_t role_count;

    if (!need_header(reading, &role_count)) {
        return 0;
    }
    put(frame, HEADER, 1);
    put(frame, 1, 1);
    put(frame, role_count, 1);
    return 1;
}

/* Takes a priority. */
static int need_priority(struct reading *reading, unsigned *priority)
{
    uint32_t number;

    if (!need(reading, "at priority", "'at priority' and a number")
        || !need_number(reading, "a priority, 0 to 15", BYTE_MOST, &number)) {
        return 0;
    }
    *priority = number;
    return 1;
}

/* Takes the minutes for which a row counts, if they are said: from 0 on, where they are not. */
static int need_bounds(struct reading *reading, struct periodic *row)
{
    row->begin = 0;
    row->end = NO_END;
    if (!take(reading, ", from minute")) {
        return need_end(reading, ", or ', from minute' and a minute");
    }
    if (!need_time(reading, UINT32_MAX, &row->begin)) {
        return 0;
    }
    if (!take(reading, "on")) {
        if (!need(reading, "to the end of minute", "'on', or 'to the end of minute' and a minute")
            || !need_time(reading, NO_END - 1, &row->end)) {
            return 0;
        }
    }
    return need_end(reading, "");
}

/* A periodic row. */
int frame_of_periodic(struct reading *reading, struct frame *frame)
{
    struct periodic row;

    if (!need_event(reading, &row.event) || !need_priority(reading, &row.priority)
        || !need(reading, ", in", "', in' and a window, as in ', in minutes 8:00 to 8:59 of every"
                                  " day'")
        || !need_window(reading, &row) || !need_bounds(reading, &row)) {
        return 0;
    }
    put(frame, PERIODIC, 1);
    put(frame, row.begin, 4);
    put(frame, row.end, 4);
    put(frame, row.period, 2);
    put(frame, row.first, 2);
    put(frame, row.run, 2);
    put(frame, row.event, 1);
    put(frame, row.priority, 1);
    return 1;
}

/* Takes a delay up to the end of the sentence, if it is said: none, where it is not. */
static int need_delay(struct reading *reading, unsigned *delay)
{
    uint32_t number = 0;

    if (take(reading, ", after")) {
        if (!need_number(reading, "a number of minutes, 1 to 60", BYTE_MOST, &number)
            || !(number == 1 ? need(reading, "minute", "'minute', as it is 1")
                             : need(reading, "minutes", "'minutes'"))
            || !need_end(reading, "")) {
            return 0;
        }
    } else if (take(reading, ", in the same minute")) {
        if (!need_end(reading, "")) {
            return 0;
        }
    } else if (!need_end(reading, ", or ', in the same minute', or ', after' and minutes, as in ',"
                                  " after 5 minutes'")) {
        return 0;
    }
    *delay = number;
    return 1;
}

/* Takes 'and', after which another of at most four must come; 0 where it does not stand there. */
static int take_and(struct reading *reading, unsigned count, const char *expected, int *good)
{
    if (!comes(reading, "and")) {
        return 0;
    }
    *good = count < BODY_MOST || fault(reading, reading->at, "expected %s", expected);
    return *good && take(reading, "and");
}

/* Takes the events of a trigger. */
static int need_events(struct reading *reading, struct trigger *row)
{
    int good;

    row->event_count = 0;
    do {
        good = need_event(reading, &row->events[row->event_count]);
        row->event_count++;
    } while (good && take_and(reading, row->event_count, "':' or ', while': a trigger has at most"
                                                         " 4 events before it", &good));
    return good;
}

/* Takes the conditions of a trigger, if it has any, and the mark behind them. */
static int need_conditions(struct reading *reading, struct trigger *row)
{
    int good;

    row->condition_count = 0;
    if (!take(reading, ", while")) {
        return need(reading, ":", "':' and an event, 'and' and another event, or ', while' and a"
                                  " condition");
    }
    do {
        good = need_condition(reading, &row->conditions[row->condition_count]);
        row->condition_count++;
    } while (good && take_and(reading, row->condition_count, "':': a trigger has at most 4"
                                                             " conditions", &good));
    return good && need(reading, ":", "':' and an event, or 'and' and another condition");
}

/* Puts so many numbers of a byte each to the end of a frame. */
static void put_all(struct frame *frame, const unsigned *numbers, unsigned count)
{
    unsigned i;

    for (i = 0; i < count; i++) {
        put(frame, numbers[i], 1);
    }
}

/* A trigger. */
int frame_of_trigger(struct reading *reading, struct frame *frame)
{
    struct trigger row;

    if (!need(reading, "on", "'on' and an event") || !need_events(reading, &row)
        || !need_conditions(reading, &row)
        || !need_event(reading, &row.head) || !need_priority(reading, &row.priority)
        || !need_delay(reading, &row.delay)) {
        return 0;
    }
    put(frame, TRIGGER, 1);
    put(frame, row.event_count, 1);
    put(frame, row.condition_count, 1);
    put_all(frame, row.events, row.event_count);
    put_all(frame, row.conditions, row.condition_count);
    put(frame, row.head, 1);
    put(frame, row.priority, 1);
    put(frame, row.delay, 1);
    return 1;
}

/* Takes a count that must be right, as '1 trigger' or '2 triggers'. */
static int need_count(struct reading *reading, unsigned long count, const char *thing)
{
    char phrase[60], expected[160];

    snprintf(phrase, sizeof phrase, "%lu %s%s", count, thing, count == 1 ? "" : "s");
    snprintf(expected, sizeof expected, "'%s', as the sheet has so many", phrase);
    return need(reading, phrase, expected);
}

/* The end of the sheet, with the counts of the rows that are there. */
int frame_of_end(struct reading *reading, const struct making *making, struct frame *frame)
{
    if (!need(reading, "the end of the sheet", "'the end of the sheet'")) {
        return 0;
    }
    if (take(reading, ", which has")) {
        if (!need_count(reading, making->periodic_count, "periodic row")
            || !need(reading, "and", "'and' and the number of triggers")
            || !need_count(reading, making->trigger_count, "trigger") || !need_end(reading, "")) {
            return 0;
        }
    } else if (!need_end(reading, ", or ', which has' and the rows of the sheet")) {
        return 0;
    }
    put(frame, END, 1);
    put(frame, (uint32_t)making->periodic_count, 1);
    put(frame, (uint32_t)making->trigger_count, 2);
    return 1;
}

/* A request. */
int frame_of_request(struct reading *reading, struct frame *frame)
{
    struct request request;

    if (!need(reading, "minute", "'minute'")
        || !need_time(reading, UINT32_MAX, &request.minute)
        || !need(reading, ": request", "': request' and an event")
        || !need_event(reading, &request.event) || !need_priority(reading, &request.priority)
        || !need_delay(reading, &request.delay)) {
        return 0;
    }
    put(frame, REQUEST_FRAME, 1);
    put(frame, request.minute, 4);
    put(frame, request.event, 1);
    put(frame, request.priority, 1);
    put(frame, request.delay, 1);
    return 1;
}

/* The end of the day. */
int frame_of_last(struct reading *reading, struct frame *frame)
{
    uint32_t minute;

    if (!need(reading, "the day ends after minute", "'the day ends after minute' and its last"
                                                    " minute")
        || !need_time(reading, UINT32_MAX, &minute) || !need_end(reading, "")) {
        return 0;
    }
    put(frame, LAST_FRAME, 1);
    put(frame, minute, 4);
    return 1;
}
