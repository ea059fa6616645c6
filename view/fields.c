/* The fields of frames, by the byte at which they begin. */
#include "fields.h"

#include "names.h"

#define MANY(list) (sizeof(list) / sizeof(list)[0])

static const struct field header[] = {{"version", 1, 1, RANGE, 1, 1},
                                      {"role count", 2, 1, RANGE, 1, ROLES_MOST}};
static const struct field periodic[] = {{"begin", 1, 4, RANGE, 0, INSTANT_MOST},
                                        {"end", 5, 4, FROM_BEGIN, 0, INSTANT_MOST},
                                        {"period", 9, 2, RANGE, 1, PERIOD_MOST},
                                        {"first minute", 11, 2, BELOW_PERIOD, 0, 0},
                                        {"run", 13, 2, TO_PERIOD, 1, 0},
                                        {"event", 15, 1, EVENT, 0, 0},
                                        {"priority", 16, 1, RANGE, 0, PRIORITY_MOST}};
static const struct field request[] = {{"minute", 1, 4, FROM_ABOVE, 0, 0},
                                       {"event", 5, 1, EVENT, 0, 0},
                                       {"priority", 6, 1, RANGE, 0, PRIORITY_MOST},
                                       {"delay", 7, 1, RANGE, 0, DELAY_MOST}};
static const struct field last[] = {{"last minute", 1, 4, LAST_MINUTE, 0, DAY_MOST}};

/* Those of a trigger before its events and conditions, and those after them, counted from there. */
static const struct field counts[] = {{"event count", 1, 1, RANGE, 1, BODY_MOST},
                                      {"condition count", 2, 1, RANGE, 0, BODY_MOST}};
static const struct field act[] = {{"event that is to happen", 0, 1, EVENT, 0, 0},
                                   {"priority", 1, 1, RANGE, 0, PRIORITY_MOST},
                                   {"delay", 2, 1, RANGE, 0, DELAY_MOST}};

/* What its events and conditions are called: one alone, and each of several. */
static const char *const events[] = {"event", "first event", "second event", "third event",
                                     "fourth event"};
static const char *const conditions[] = {"condition", "first condition", "second condition",
                                         "third condition", "fourth condition"};

/* Takes the field of a list that begins at a byte; 0 when none does. */
static int take_field(const struct field *list, size_t count, size_t at, struct field *field)
{
    size_t i;

    for (i = 0; i < count; i++) {
        if (list[i].at == at) {
            *field = list[i];
            return 1;
        }
    }
    return 0;
}

/* Takes an event or a condition of a trigger, by its number from 0, of so many; 0 when too many. */
static int take_member(const char *const *names, size_t number, size_t count, struct field *field)
{
    if (count > BODY_MOST) {
        return 0;
    }
    field->name = names[count == 1 ? 0 : number + 1];
    field->bytes = 1;
    field->limit = names == events ? EVENT : CONDITION;
    return 1;
}

/* Takes the field of a trigger that begins at a byte; 0 when none does. */
static int take_of_trigger(const struct line *line, size_t at, struct field *field)
{
    size_t event_count = byte_in(line, 1), condition_count = byte_in(line, 2);
    size_t body = at - 3, past = event_count + condition_count;
    int taken;

    if (at < 3) {
        return take_field(counts, MANY(counts), at, field);
    }
    if (body < event_count) {
        taken = take_member(events, body, event_count, field);
    } else if (body < past) {
        taken = take_member(conditions, body - event_count, condition_count, field);
    } else {
        taken = take_field(act, MANY(act), body - past, field);
    }
    field->at = at;
    return taken;
}

/* Takes the field of a line that begins at a byte; 0 when none does. */
int field_at(const struct line *line, size_t at, struct field *field)
{
    switch (byte_in(line, 0)) {
    case HEADER:
        return take_field(header, MANY(header), at, field);
    case PERIODIC:
        return take_field(periodic, MANY(periodic), at, field);
    case TRIGGER:
        return take_of_trigger(line, at, field);
    case REQUEST_FRAME:
        return take_field(request, MANY(request), at, field);
    case LAST_FRAME:
        return take_field(last, MANY(last), at, field);
    default:
        return 0;
    }
}
