/* The frames of a sheet as lines; the writer and the generator have them in common. */
#include "second.h"

/* Puts a number into bytes, high byte first; how many bytes come back. */
size_t put_number(uint8_t *bytes, uint32_t value, size_t count)
{
    size_t i;

    for (i = 0; i < count; i++) {
        bytes[i] = (uint8_t)(value >> (8 * (count - 1 - i)));
    }
    return count;
}

/* The header line with a version and a role count. */
void put_header_of(struct text *out, unsigned version, uint32_t role_count)
{
    uint8_t bytes[3];

    bytes[0] = 0x10;
    bytes[1] = (uint8_t)version;
    bytes[2] = (uint8_t)role_count;
    text_frame(out, bytes, sizeof bytes);
}

/* The line of a periodic row. */
void put_periodic(struct text *out, const struct periodic *row)
{
    uint8_t bytes[17];
    size_t at = 0;

    bytes[at++] = 0x20;
    at += put_number(bytes + at, row->begin, 4);
    at += put_number(bytes + at, row->end, 4);
    at += put_number(bytes + at, row->period, 2);
    at += put_number(bytes + at, row->first, 2);
    at += put_number(bytes + at, row->run, 2);
    bytes[at++] = row->event;
    bytes[at++] = row->priority;
    text_frame(out, bytes, at);
}

/* The line of a trigger; when a count is over the limit its places are gone through again. */
void put_trigger(struct text *out, const struct trigger *row)
{
    uint8_t bytes[600];
    size_t at = 0;
    unsigned i;

    bytes[at++] = 0x30;
    bytes[at++] = row->event_count;
    bytes[at++] = row->condition_count;
    for (i = 0; i < row->event_count; i++) {
        bytes[at++] = row->events[i % BODY_MOST];
    }
    for (i = 0; i < row->condition_count; i++) {
        bytes[at++] = row->conditions[i % BODY_MOST];
    }
    bytes[at++] = row->head;
    bytes[at++] = row->priority;
    bytes[at++] = row->delay;
    text_frame(out, bytes, at);
}

/* The end line with its two counts. */
void put_end_of(struct text *out, uint32_t periodic_count, uint32_t trigger_count)
{
    uint8_t bytes[4];

    bytes[0] = 0xF0;
    put_number(bytes + 1, periodic_count, 1);
    put_number(bytes + 2, trigger_count, 2);
    text_frame(out, bytes, sizeof bytes);
}
