/* Lines of which fields are outside their limits, the check right and the byte count too. */
#include "gen.h"

#include <string.h>

/* A field and a value outside its limit; "place" is which event or condition, from 0. */
struct wrong {
    enum spot spot;
    unsigned place;
    int from; /* 1: the value counts from the field's own base */
    uint32_t value;
};

static const struct wrong headers[] = {
    {VERSION, 0, 0, 0}, {VERSION, 0, 0, 2}, {VERSION, 0, 0, 16}, {VERSION, 0, 0, 129},
    {VERSION, 0, 0, 255}, {ROLES, 0, 0, 0}, {ROLES, 0, 0, 65}, {ROLES, 0, 0, 66},
    {ROLES, 0, 0, 128}, {ROLES, 0, 0, 129}, {ROLES, 0, 0, 255}
};

static const struct wrong periodics[] = {
    {BEGIN, 0, 0, 16777216}, {BEGIN, 0, 0, 16777217}, {BEGIN, 0, 0, UINT32_C(0x80000000)},
    {BEGIN, 0, 0, NO_END - 1}, {BEGIN, 0, 0, NO_END},
    {END, 0, 1, UINT32_MAX}, {END, 0, 0, 0}, {END, 0, 0, 16777216},
    {END, 0, 0, UINT32_C(0x80000000)}, {END, 0, 0, NO_END - 1},
    {PERIOD, 0, 0, 0}, {PERIOD, 0, 0, 10081}, {PERIOD, 0, 0, 32768}, {PERIOD, 0, 0, 65535},
    {FIRST, 0, 1, 0}, {FIRST, 0, 1, 1}, {FIRST, 0, 0, 32768}, {FIRST, 0, 0, 65535},
    {RUN, 0, 0, 0}, {RUN, 0, 1, 1}, {RUN, 0, 0, 32768}, {RUN, 0, 0, 65535},
    {ROW_EVENT, 0, 1, 0}, {ROW_EVENT, 0, 1, 1}, {ROW_EVENT, 0, 0, 128}, {ROW_EVENT, 0, 0, 255},
    {ROW_PRIORITY, 0, 0, 16}, {ROW_PRIORITY, 0, 0, 17}, {ROW_PRIORITY, 0, 0, 128},
    {ROW_PRIORITY, 0, 0, 255}
};

static const struct wrong triggers[] = {
    {BODY_COUNT, 0, 0, 0}, {BODY_COUNT, 0, 0, 5}, {BODY_COUNT, 0, 0, 6}, {BODY_COUNT, 0, 0, 128},
    {BODY_COUNT, 0, 0, 255}, {CONDITION_COUNT, 0, 0, 5}, {CONDITION_COUNT, 0, 0, 6},
    {CONDITION_COUNT, 0, 0, 128}, {CONDITION_COUNT, 0, 0, 255},
    {BODY, 0, 1, 0}, {BODY, 0, 1, 1}, {BODY, 0, 0, 128}, {BODY, 0, 0, 255},
    {BODY, 1, 1, 0}, {BODY, 1, 1, 1}, {BODY, 1, 0, 128}, {BODY, 1, 0, 255},
    {BODY, 2, 1, 0}, {BODY, 2, 1, 1}, {BODY, 2, 0, 128}, {BODY, 2, 0, 255},
    {BODY, 3, 1, 0}, {BODY, 3, 1, 1}, {BODY, 3, 0, 128}, {BODY, 3, 0, 255},
    {CONDITION, 0, 1, 0}, {CONDITION, 0, 1, 1}, {CONDITION, 0, 0, 128}, {CONDITION, 0, 0, 255},
    {CONDITION, 1, 1, 0}, {CONDITION, 1, 1, 1}, {CONDITION, 1, 0, 128}, {CONDITION, 1, 0, 255},
    {CONDITION, 2, 1, 0}, {CONDITION, 2, 1, 1}, {CONDITION, 2, 0, 128}, {CONDITION, 2, 0, 255},
    {CONDITION, 3, 1, 0}, {CONDITION, 3, 1, 1}, {CONDITION, 3, 0, 128}, {CONDITION, 3, 0, 255},
    {HEAD, 0, 1, 0}, {HEAD, 0, 1, 1}, {HEAD, 0, 0, 128}, {HEAD, 0, 0, 255},
    {HEAD_PRIORITY, 0, 0, 16}, {HEAD_PRIORITY, 0, 0, 17}, {HEAD_PRIORITY, 0, 0, 128},
    {HEAD_PRIORITY, 0, 0, 255},
    {DELAY, 0, 0, 61}, {DELAY, 0, 0, 62}, {DELAY, 0, 0, 128}, {DELAY, 0, 0, 255}
};

/* These are COUNT and no FIELD. */
static const struct wrong ends[] = {
    {END_PERIODIC, 0, 1, 1}, {END_PERIODIC, 0, 1, UINT32_MAX}, {END_PERIODIC, 0, 1, 128},
    {END_TRIGGER, 0, 1, 1}, {END_TRIGGER, 0, 1, UINT32_MAX}, {END_TRIGGER, 0, 1, 256}
};

/*
 * An instant over a limit is no fault of its own line: a later one is then below it. Events,
 * priorities and delays are REQUEST and no FIELD.
 */
static const struct wrong requests[] = {
    {INSTANT, 0, 1, UINT32_MAX}, {INSTANT, 0, 1, UINT32_MAX - 1}, {INSTANT, 0, 0, 0},
    {INSTANT, 0, 0, 1}, {INSTANT, 0, 0, 10081}, {INSTANT, 0, 0, 16777216},
    {INSTANT, 0, 0, UINT32_MAX},
    {ASKED_EVENT, 0, 1, 0}, {ASKED_EVENT, 0, 1, 1}, {ASKED_EVENT, 0, 0, 128},
    {ASKED_EVENT, 0, 0, 255}, {ASKED_PRIORITY, 0, 0, 16}, {ASKED_PRIORITY, 0, 0, 17},
    {ASKED_PRIORITY, 0, 0, 128}, {ASKED_PRIORITY, 0, 0, 255}, {ASKED_DELAY, 0, 0, 61},
    {ASKED_DELAY, 0, 0, 62}, {ASKED_DELAY, 0, 0, 128}, {ASKED_DELAY, 0, 0, 255}
};

static const struct wrong lasts[] = {
    {LAST_INSTANT, 0, 1, UINT32_MAX}, {LAST_INSTANT, 0, 1, UINT32_MAX - 1},
    {LAST_INSTANT, 0, 0, 0}, {LAST_INSTANT, 0, 0, 1}, {LAST_INSTANT, 0, 0, 10081},
    {LAST_INSTANT, 0, 0, 10082}, {LAST_INSTANT, 0, 0, 65536}, {LAST_INSTANT, 0, 0, 16777216},
    {LAST_INSTANT, 0, 0, UINT32_C(0x80000000)}, {LAST_INSTANT, 0, 0, UINT32_MAX}
};

/* What can be wrong in each sort of line, in the order of the sorts, with its first characters. */
static const struct {
    const char *kind;
    const struct wrong *wrongs;
    uint32_t count;
} sorts[] = {
    {"10", headers, sizeof headers / sizeof headers[0]},
    {"20", periodics, sizeof periodics / sizeof periodics[0]},
    {"30", triggers, sizeof triggers / sizeof triggers[0]},
    {"F0", ends, sizeof ends / sizeof ends[0]},
    {"40", requests, sizeof requests / sizeof requests[0]},
    {"F1", lasts, sizeof lasts / sizeof lasts[0]}
};

/*
 * Where each field starts and how many bytes it has, in the order of the spots; in a trigger the
 * places are those of one without events and conditions.
 */
static const uint8_t stretches[][2] = {
    {1, 1}, {2, 1}, {1, 4}, {5, 4}, {9, 2}, {11, 2}, {13, 2}, {15, 1}, {16, 1},
    {1, 1}, {2, 1}, {3, 1}, {3, 1}, {3, 1}, {4, 1}, {5, 1},
    {0, 0}, {0, 0}, {1, 1}, {2, 2}, {1, 4}, {5, 1}, {6, 1}, {7, 1}, {1, 4}
};

/* How many wrong values there are for the fields of a sort of line. */
uint32_t wrong_fields(enum sort sort)
{
    return sorts[sort].count;
}

/* Takes the frame of a line, from 0, of a text; 0 when it is none. */
static int frame_of(const struct text *text, uint32_t line, struct frame *frame)
{
    size_t start = line_start(text, line);
    struct cursor cursor = cursor_at(text->bytes + start, text->length - start, 1);
    struct line taken;

    return next_line(&cursor, &taken) && frame_and_check(&taken, 1, frame).number != FRAME;
}

/* Puts a frame, with the right check, in the place of a line. */
static void put_frame(struct text *text, uint32_t line, const struct frame *frame)
{
    static struct text made;
    size_t start = line_start(text, line);

    text_clear(&made);
    text_frame(&made, frame->bytes, frame->length - 1);
    replace(text, start, line_start(text, line + 1) - start, made.bytes, made.length);
}

/* What a field's value counts from: begin, the period, twice the role count, another instant. */
static uint32_t base_of(const struct text *text, uint32_t line, const struct frame *frame,
                        enum spot spot)
{
    static struct frame other;

    if (spot == END) {
        return number_at(frame, 1, 4);
    }
    if (spot == FIRST || spot == RUN) {
        return number_at(frame, 9, 2);
    }
    if (spot == END_PERIODIC || spot == END_TRIGGER) {
        return number_at(frame, stretches[spot][0], stretches[spot][1]);
    }
    if (spot == INSTANT || spot == LAST_INSTANT) {
        return line > 0 && frame_of(text, line - 1, &other) && other.length == 9
            ? number_at(&other, 1, 4) : 0;
    }
    return frame_of(text, 0, &other) ? 2u * other.bytes[2] : 0;
}

/* Sets a field of a frame; the places of a trigger's fields go by its counts. */
static void set_field(struct frame *frame, const struct wrong *wrong, uint32_t value)
{
    size_t at = stretches[wrong->spot][0] + wrong->place;

    if (wrong->spot >= CONDITION && wrong->spot <= DELAY) {
        at += frame->bytes[1];
    }
    if (wrong->spot >= HEAD && wrong->spot <= DELAY) {
        at += frame->bytes[2];
    }
    put_number(frame->bytes + at, value, stretches[wrong->spot][1]);
}

/* Gives a trigger frame another number of events or of conditions, new ones being 0. */
static void set_count(struct frame *frame, enum spot spot, uint32_t count)
{
    size_t at = spot == BODY_COUNT ? 1 : 2;
    size_t start = at == 1 ? 3 : 3u + frame->bytes[1], old = frame->bytes[at];

    memmove(frame->bytes + start + count, frame->bytes + start + old, frame->length - start - old);
    if (count > old) {
        memset(frame->bytes + start + old, 0, count - old);
    }
    frame->length = frame->length + count - old;
    frame->bytes[at] = (uint8_t)count;
}

/* Lets a trigger frame have the event or the condition of which a field speaks. */
static void make_place(struct dice *dice, struct frame *frame, const struct wrong *wrong)
{
    uint32_t count = between(dice, wrong->place + 1, BODY_MOST);

    if (wrong->spot == BODY && frame->bytes[1] <= wrong->place) {
        set_count(frame, BODY_COUNT, count);
    } else if (wrong->spot == CONDITION && frame->bytes[2] <= wrong->place) {
        set_count(frame, CONDITION_COUNT, count);
    }
}

/* Brings other fields of a periodic frame to where the wrong one can be wrong alone. */
static void make_alone(struct frame *frame, const struct wrong *wrong)
{
    if (wrong->spot == BEGIN) {
        put_number(frame->bytes + 5, NO_END, 4);
    } else if (wrong->spot == END && number_at(frame, 1, 4) == 0) {
        put_number(frame->bytes + 1, 7, 4);
    } else if (wrong->spot == PERIOD) {
        put_number(frame->bytes + 11, 0, 2);
        put_number(frame->bytes + 13, 1, 2);
    }
}

/*
 * Brings a field of a line, from 0, outside its limit; "alone" makes sure that the fields beside
 * it are right.
 */
void set_wrong(struct dice *dice, struct text *text, uint32_t line, enum sort sort, uint32_t which,
               int alone)
{
    static struct frame frame;
    const struct wrong *wrong = &sorts[sort].wrongs[which % sorts[sort].count];
    uint32_t value = wrong->value;

    if (!frame_of(text, line, &frame)) {
        return;
    }
    if (alone) {
        make_alone(&frame, wrong);
    }
    make_place(dice, &frame, wrong);
    value += wrong->from ? base_of(text, line, &frame, wrong->spot) : 0;
    if (wrong->spot == BODY_COUNT || wrong->spot == CONDITION_COUNT) {
        set_count(&frame, wrong->spot, value);
    } else {
        set_field(&frame, wrong, value);
    }
    put_frame(text, line, &frame);
}

/* Drops a byte of a line's frame after the kind or puts one in, the check put right. */
void set_wrong_size(struct dice *dice, struct text *text, uint32_t line)
{
    static struct frame frame;
    size_t at;

    if (!frame_of(text, line, &frame) || frame.length < 3) {
        return;
    }
    at = between(dice, 1, (uint32_t)frame.length - 2);
    if (chance(dice, 50)) {
        memmove(frame.bytes + at, frame.bytes + at + 1, frame.length - at - 1);
        frame.length--;
    } else {
        memmove(frame.bytes + at + 1, frame.bytes + at, frame.length - at);
        frame.length++;
    }
    put_frame(text, line, &frame);
}

/* Whether a line of a text is of a sort, by its first two characters. */
static int is_of(const struct text *text, uint32_t line, enum sort sort)
{
    size_t start = line_start(text, line);

    return start + 2 <= text->length && memcmp(text->bytes + start, sorts[sort].kind, 2) == 0;
}

/* The number, from 0, of the first, the middle or the last line of a sort, or of any. */
uint32_t line_of(struct dice *dice, const struct text *text, enum sort sort, enum where where)
{
    uint32_t lines = line_count(text), count = 0, line, row;

    for (line = 0; line < lines; line++) {
        count += is_of(text, line, sort) ? 1 : 0;
    }
    row = row_at(dice, where, count) + 1;
    for (line = 0; line < lines && row > 0; line++) {
        row -= is_of(text, line, sort) ? 1 : 0;
    }
    return line - 1;
}
