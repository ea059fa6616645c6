/* The sentences of a file, one after another: their kinds, and the order in which they come. */
#include "sentences.h"

#include "characters.h"

#include <stdlib.h>
#include <string.h>

enum {
    NAME_SENTENCE = 0, /* the kind of a sentence that stands for no frame */
    PERIODIC_COUNT_MOST = 0xFF,
    TRIGGER_COUNT_MOST = 0xFFFF,
    DIGITS_LEAST = 8 /* of a line that is taken for a frame */
};

/* The words with which sentences of a kind begin. */
struct opening {
    const char *phrase;
    unsigned kind;
};

static const struct opening openings[] = {
    {"a sheet", HEADER}, {"role", NAME_SENTENCE}, {"enable", PERIODIC},
    {"disable", PERIODIC}, {"on", TRIGGER}, {"the end", END},
    {"minute", REQUEST_FRAME}, {"the day", LAST_FRAME}
};

enum { OPENINGS = sizeof openings / sizeof openings[0] };

/* The kind of the sentence that begins here; -1 where none does. */
static int kind_of(struct reading *reading)
{
    size_t i;

    for (i = 0; i < OPENINGS; i++) {
        if (comes(reading, openings[i].phrase)) {
            return (int)openings[i].kind;
        }
    }
    return -1;
}

/* What may stand where a sentence begins, as far as the file was read. */
static const char *expected_at(enum stage stage)
{
    switch (stage) {
    case BEFORE_SHEET:
        return "'a sheet of' and the number of roles, as in 'a sheet of 8 roles'";
    case IN_SHEET:
        return "a periodic row ('enable' or 'disable'), a trigger ('on'), a name ('role') or 'the"
               " end of the sheet'";
    case ON_TAPE:
        return "a request, as in 'minute 8:00: request enable 3 at priority 9', or 'the day ends"
               " after minute' and its last minute";
    default:
        return "nothing more, as the day has ended; only names and comments may follow";
    }
}

/* Whether a sentence of this kind may come next. */
static int in_place(enum stage stage, unsigned kind)
{
    int of_tape = kind == REQUEST_FRAME || kind == LAST_FRAME;

    if (stage == BEFORE_SHEET) {
        return kind == HEADER;
    }
    return stage == ON_TAPE ? of_tape : stage == IN_SHEET && kind != HEADER && !of_tape;
}

/* What must come before a sentence that is out of its place, or instead of it. */
static const char *expected_before(enum stage stage, unsigned kind)
{
    switch (stage) {
    case BEFORE_SHEET:
        return "'a sheet of' and the number of roles before all rows, as in 'a sheet of 8 roles'";
    case IN_SHEET:
        if (kind == HEADER) {
            return "one sheet only: it has begun above, and has not ended";
        }
        return kind == REQUEST_FRAME ? "'the end of the sheet' before the first request"
                                     : "'the end of the sheet' before the end of the day";
    case ON_TAPE:
        return "a request or the end of the day, as the sheet has ended above";
    default:
        return expected_at(stage);
    }
}

/* What is wrong with a line that begins as no sentence does. */
static int no_sentence(struct reading *reading, enum stage stage)
{
    size_t i, digits = strspn(reading->at, "0123456789ABCDEF");

    if (digits >= DIGITS_LEAST && (ends(reading->at + digits) || reading->at[digits] == ' ')) {
        return fault(reading, reading->at, "expected a sentence; these are frames already");
    }
    if (comes(reading, "refused")) {
        return fault(reading, reading->at, "expected a sentence; these are the words of a refused"
                                           " input");
    }
    for (i = 0; i < OPENINGS; i++) {
        if (comes_in_capitals(reading, openings[i].phrase)) {
            return fault(reading, reading->at, "expected '%s', in small letters",
                         openings[i].phrase);
        }
    }
    return fault(reading, reading->at, "expected %s", expected_at(stage));
}

/* Whether the sheet's end can count one row more. */
static int can_count(const struct reading *reading, const struct making *making, unsigned kind)
{
    if (kind == PERIODIC && making->periodic_count == PERIODIC_COUNT_MOST) {
        return fault(reading, reading->at, "expected no more periodic rows: the end of a sheet can"
                                           " count %d", PERIODIC_COUNT_MOST);
    }
    if (kind == TRIGGER && making->trigger_count == TRIGGER_COUNT_MOST) {
        return fault(reading, reading->at, "expected no more triggers: the end of a sheet can count"
                                           " %d", TRIGGER_COUNT_MOST);
    }
    return 1;
}

/* The frame of a sentence of some kind. */
static int read_frame(struct reading *reading, const struct making *making, unsigned kind,
                      struct frame *frame)
{
    switch (kind) {
    case HEADER:
        return frame_of_header(reading, frame);
    case PERIODIC:
        return frame_of_periodic(reading, frame);
    case TRIGGER:
        return frame_of_trigger(reading, frame);
    case END:
        return frame_of_end(reading, making, frame);
    case REQUEST_FRAME:
        return frame_of_request(reading, frame);
    default:
        return frame_of_last(reading, frame);
    }
}

/* Counts a sentence, and goes on to where it leads. */
static void count(struct making *making, unsigned kind)
{
    making->periodic_count += kind == PERIODIC;
    making->trigger_count += kind == TRIGGER;
    making->request_count += kind == REQUEST_FRAME;
    if (kind == HEADER) {
        making->stage = IN_SHEET;
    } else if (kind == END) {
        making->stage = ON_TAPE;
    } else if (kind == LAST_FRAME) {
        making->stage = AFTER_DAY;
    }
}

/* Keeps a frame with its check, as digits; -1 where there is no memory. */
static int keep(struct making *making, const struct reading *reading, struct frame *frame)
{
    struct made *made;
    size_t i, room = making->room == 0 ? 64 : 2 * making->room;

    if (making->count == making->room) {
        made = realloc(making->list, room * sizeof *made);
        if (made == NULL) {
            return -1;
        }
        making->list = made;
        making->room = room;
    }
    frame->bytes[frame->length] = (uint8_t)(256 - sum_of(frame, frame->length));
    frame->length++;
    made = &making->list[making->count++];
    made->line = reading->line;
    made->number = reading->number;
    for (i = 0; i < frame->length; i++) {
        sprintf(made->digits + 2 * i, "%02X", (unsigned)frame->bytes[i]);
    }
    return 1;
}

/* Reads the sentence of a line, if it has one. */
static int read_sentence(struct reading *reading, struct making *making)
{
    struct frame frame;
    int kind;

    skip_blanks(reading);
    if (ends(reading->at)) {
        return 1;
    }
    if (!need_prefix(reading)) {
        return 0;
    }
    kind = kind_of(reading);
    if (kind < 0) {
        return no_sentence(reading, making->stage);
    }
    if (kind == NAME_SENTENCE) {
        return need_name(reading, 0);
    }
    if (!in_place(making->stage, (unsigned)kind)) {
        return fault(reading, reading->at, "expected %s",
                     expected_before(making->stage, (unsigned)kind));
    }
    frame.length = 0;
    if (!can_count(reading, making, (unsigned)kind)
        || !read_frame(reading, making, (unsigned)kind, &frame)) {
        return 0;
    }
    count(making, (unsigned)kind);
    return keep(making, reading, &frame);
}

/* Whether a character may stand in a file of sentences. */
static int character_stands(const struct reading *reading, const char *at, size_t length,
                            uint32_t number)
{
    if (reading->number == 1 && at == (const char *)reading->line.bytes
        && (memcmp(at, "\xFF\xFE", 2) == 0 || memcmp(at, "\xFE\xFF", 2) == 0)) {
        return fault(reading, at, "expected text in UTF-8; the file begins as one in UTF-16 does");
    }
    if (length == 0) {
        return fault(reading, at, "expected text in UTF-8; here stands the byte %02X, which does"
                                  " not belong to it", (unsigned)(unsigned char)*at);
    }
    if (number < 0x20 || number == 0x7F) {
        return fault(reading, at, "expected text; here stands the control character %02X",
                     (unsigned)number);
    }
    return printable(number) ? 1 : fault(reading, at, "expected text; here stands U+%04lX, which"
                                                      " does not print", (unsigned long)number);
}

/* Whether all characters of a line may stand in it. */
static int characters_stand(const struct reading *reading)
{
    const char *at = (const char *)reading->line.bytes;
    const char *end = at + reading->line.length;
    uint32_t number;
    size_t length;

    while (at < end) {
        length = character_at(at, &number);
        if (!character_stands(reading, at, length, number)) {
            return 0;
        }
        at += length;
    }
    return 1;
}

/* Whether the file may end here. */
static int may_end(struct reading *reading, const struct making *making)
{
    reading->line.bytes = NULL;
    if (making->stage == BEFORE_SHEET) {
        return fault(reading, NULL, "expected %s, and here the file ends",
                     expected_at(BEFORE_SHEET));
    }
    if (making->stage == IN_SHEET) {
        return fault(reading, NULL, "expected 'the end of the sheet', and here the file ends");
    }
    if (making->stage == ON_TAPE && making->request_count > 0) {
        return fault(reading, NULL, "expected 'the day ends after minute' and its last minute after"
                                    " the requests, and here the file ends");
    }
    return 1;
}

/* Makes the frames of all sentences, up to the first thing that is wrong. */
int make_frames(struct reading *reading, struct text text, struct making *making)
{
    int good = 1;

    for (reading->number = 1; take_line(&text, &reading->line); reading->number++) {
        reading->at = (const char *)reading->line.bytes;
        good = characters_stand(reading) ? read_sentence(reading, making) : 0;
        if (good != 1) {
            return good;
        }
    }
    return may_end(reading, making);
}
