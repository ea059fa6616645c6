/* The reader of a sheet. */
#include "limits.h"

enum { HEADER = 0x10, PERIODIC = 0x20, TRIGGER = 0x30, END = 0xF0 };

/* What was read so far. It is handed out only when all of it passed. */
struct reading {
    u32 roles, periodics, triggers;
    int ended;
    struct periodic periodic[PERIODIC_ROWS];
    struct trigger trigger[TRIGGER_ROWS];
};

/* The byte count of the frame's kind; 0 where there is no such kind. */
static u32 size_of(const struct frame *frame)
{
    switch (frame->bytes[0]) {
    case HEADER:
        return 4;
    case PERIODIC:
        return 18;
    case TRIGGER:
        return frame->count < 3 ? 7 : 7u + frame->bytes[1] + frame->bytes[2];
    case END:
        return 5;
    default:
        return 0;
    }
}

/* The header: FIELD. */
static enum name take_header(struct reading *seen, const byte *fields)
{
    if (fields[0] != 1 || fields[1] < 1 || fields[1] > ROLES) {
        return FIELD;
    }
    seen->roles = fields[1];
    return OK;
}

/* A periodic row: TOO MANY, FIELD. */
static enum name take_periodic(struct reading *seen, const byte *fields)
{
    struct periodic *row;

    if (seen->periodics == PERIODIC_ROWS) {
        return TOO_MANY;
    }
    row = &seen->periodic[seen->periodics++];
    row->begin = number4(fields);
    row->end = number4(fields + 4);
    row->period = (u16)number2(fields + 8);
    row->first = (u16)number2(fields + 10);
    row->run = (u16)number2(fields + 12);
    row->event = fields[14];
    row->priority = fields[15];
    return periodic_fits(row, seen->roles) ? OK : FIELD;
}

/* A trigger: TOO MANY, FIELD. Its counts are tested before they fill its places. */
static enum name take_trigger(struct reading *seen, const byte *fields)
{
    struct trigger *row;
    const byte *rest;
    u32 i;

    if (seen->triggers == TRIGGER_ROWS) {
        return TOO_MANY;
    }
    if (fields[0] > BODY_EVENTS || fields[1] > BODY_CONDITIONS) {
        return FIELD;
    }
    row = &seen->trigger[seen->triggers++];
    row->events = fields[0];
    row->conditions = fields[1];
    rest = fields + 2;
    for (i = 0; i < row->events; i++) {
        row->event[i] = *rest++;
    }
    for (i = 0; i < row->conditions; i++) {
        row->condition[i] = *rest++;
    }
    row->head = rest[0];
    row->priority = rest[1];
    row->delay = rest[2];
    return trigger_fits(row, seen->roles) ? OK : FIELD;
}

/* The end: COUNT. */
static enum name take_end(struct reading *seen, const byte *fields)
{
    if (fields[0] != seen->periodics || number2(fields + 1) != seen->triggers) {
        return COUNT;
    }
    seen->ended = 1;
    return OK;
}

/* KIND, and then what the frame's own kind asks. The header comes first, and only there. */
static enum name take(struct reading *seen, const struct frame *frame)
{
    byte kind = frame->bytes[0];

    if (frame->count != size_of(frame) || seen->ended || (seen->roles == 0) != (kind == HEADER)) {
        return KIND;
    }
    switch (kind) {
    case HEADER:
        return take_header(seen, frame->bytes + 1);
    case PERIODIC:
        return take_periodic(seen, frame->bytes + 1);
    case TRIGGER:
        return take_trigger(seen, frame->bytes + 1);
    default:
        return take_end(seen, frame->bytes + 1);
    }
}

/* The first bad field of a periodic row that does not fit, by its first byte in the frame. */
static u32 bad_in_periodic(const struct periodic *row, u32 roles)
{
    return row->begin > LAST_INSTANT ? 1
        : !end_fits(row) ? 5
        : !period_fits(row) ? 9
        : row->first >= row->period ? 11
        : !run_fits(row) ? 13
        : row->event >= 2 * roles ? 15
        : 16;
}

/* That of a trigger. Its events, its conditions and its head have one limit. */
static u32 bad_in_trigger(const byte *bytes, u32 roles)
{
    u32 i, head;

    if (bytes[1] < 1 || bytes[1] > BODY_EVENTS) {
        return 1;
    }
    if (bytes[2] > BODY_CONDITIONS) {
        return 2;
    }
    head = 3u + bytes[1] + bytes[2];
    for (i = 3; i <= head; i++) {
        if (bytes[i] >= 2 * roles) {
            return i;
        }
    }
    return bytes[head + 1] >= PRIORITIES ? head + 1 : head + 2;
}

/* That of the frame that was taken last, and was FIELD; a periodic row stands as the last one. */
static u32 bad_field(const struct reading *seen, const byte *bytes)
{
    switch (bytes[0]) {
    case HEADER:
        return bytes[1] != 1 ? 1 : 2;
    case PERIODIC:
        return bad_in_periodic(&seen->periodic[seen->periodics - 1], seen->roles);
    default:
        return bad_in_trigger(bytes, seen->roles);
    }
}

/* What passed comes into the lent tables. */
static void hand_out(const struct reading *seen, struct tables *tables)
{
    memcpy(tables->periodic, seen->periodic, sizeof seen->periodic);
    memcpy(tables->trigger, seen->trigger, sizeof seen->trigger);
    tables->roles = seen->roles;
    tables->periodics = seen->periodics;
    tables->triggers = seen->triggers;
}

/* Reads a sheet into the lent tables. After a refusal they hold what they held. */
struct answer read_sheet(byte *sheet, u32 length, struct tables *tables)
{
    struct lines lines = {sheet, sheet + length, 0};
    struct reading seen;
    struct frame frame;
    struct answer found;
    enum name name;
    byte levels[EVENTS];

    if (length > SHEET_BYTES || tables->periodic_length != PERIODIC_ROWS
        || tables->trigger_length != TRIGGER_ROWS) {
        return answer(LENGTH, 0);
    }
    memset(&seen, 0, sizeof seen);
    while (lines.at < lines.end) {
        name = next_frame(&lines, &frame);
        if (name == OK) {
            name = take(&seen, &frame);
        }
        if (name != OK) {
            return refuse(name, &lines, &frame, name == FIELD ? bad_field(&seen, frame.bytes) : 0);
        }
    }
    if (!seen.ended) {
        return answer(KIND, lines.line + 1);
    }
    found = loop_test(seen.trigger, seen.triggers, levels);
    if (found.name == OK) {
        hand_out(&seen, tables);
    }
    return found;
}
