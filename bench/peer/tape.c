/* The reader of a tape. */
#include "limits.h"

enum { ASK = 0x40, TAPE_END = 0xF1 };

/* What was heard so far: the instant of the last request, how many in a row are of it, the end. */
struct hearing {
    u32 instant, row;
    int ended;
};

/* A request: TOO MANY, FIELD, REQUEST. */
static enum name take_request(struct hearing *heard, const byte *fields, u32 roles,
                              struct tape *tape)
{
    u32 instant = number4(fields);
    struct request *request = &tape->request[tape->count];

    if (instant != heard->instant) {
        heard->row = 0;
    }
    if (heard->row == REQUESTS) {
        return TOO_MANY;
    }
    if (instant < heard->instant) {
        return FIELD;
    }
    request->event = fields[4];
    request->priority = fields[5];
    request->delay = fields[6];
    if (!request_fits(request, roles)) {
        return REQUEST;
    }
    tape->instant[tape->count++] = instant;
    heard->instant = instant;
    heard->row++;
    return OK;
}

/* The last instant: FIELD. */
static enum name take_last(struct hearing *heard, const byte *fields, struct tape *tape)
{
    tape->last = number4(fields);
    if (tape->last > LONGEST_DAY || tape->last < heard->instant) {
        return FIELD;
    }
    heard->ended = 1;
    return OK;
}

/* KIND, and then what the frame's own kind asks. */
static enum name take(struct hearing *heard, const struct frame *frame, u32 roles,
                      struct tape *tape)
{
    if (heard->ended) {
        return KIND;
    }
    if (frame->bytes[0] == ASK && frame->count == 9) {
        return take_request(heard, frame->bytes + 1, roles, tape);
    }
    if (frame->bytes[0] == TAPE_END && frame->count == 6) {
        return take_last(heard, frame->bytes + 1, tape);
    }
    return KIND;
}

/* Reads a tape, whose lines are counted on from the sheet's. FIELD is always of an instant. */
struct answer read_tape(struct lines lines, u32 roles, struct tape *tape)
{
    struct hearing heard = {0, 0, 0};
    struct frame frame;
    enum name name;

    tape->count = 0;
    while (lines.at < lines.end) {
        name = next_frame(&lines, &frame);
        if (name == OK) {
            name = take(&heard, &frame, roles, tape);
        }
        if (name != OK) {
            return refuse(name, &lines, &frame, 1);
        }
    }
    return heard.ended ? answer(OK, 0) : answer(KIND, lines.line + 1);
}
