/*
 * The frames said back: the very digits that are to be printed are read again, said in words, and
 * these compared with the sentence that was given.
 */
#include "sentences.h"

#include "same_words.h"
#include "say.h"

#include <stdlib.h>
#include <string.h>

enum { SAID_MOST = ROLES_MOST * (NAME_BYTES + 20) + 400 }; /* more than any sentence has */

/* What saying back needs: room for words, and the rows that were said so far. */
struct back {
    FILE *room;
    const struct names *names;
    struct sheet *sheet;
    char *said;
    unsigned long periodic_count, trigger_count;
};

/* The frame of some digits. */
static int frame_of_digits(const char *digits, struct frame *frame)
{
    struct line line;

    line.bytes = (const uint8_t *)digits;
    line.length = strlen(digits);
    line.ended = 1;
    return frame_of(&line, frame) && sum_of(frame, frame->length) == 0;
}

/*
 * Whether there are no words for a frame because of a number that it has: a sheet of no roles, or
 * a row whose first minute or run is past its period. The box refuses each of them.
 */
static int has_no_words(const struct frame *frame)
{
    uint32_t period, first, run;

    if (frame->bytes[0] == HEADER) {
        return frame->bytes[2] == 0;
    }
    if (frame->bytes[0] != PERIODIC) {
        return 0;
    }
    period = number_at(frame, 9, 2);
    first = number_at(frame, 11, 2);
    run = number_at(frame, 13, 2);
    return first >= period || run > period;
}

/* Whether an end has the counts of the rows before it, which its sentence need not say. */
static int counts_right(const struct back *back, const struct frame *frame)
{
    struct end end;

    return frame->bytes[0] != END
        || (end_of(frame, &end) && end.periodic_count == back->periodic_count
            && end.trigger_count == back->trigger_count);
}

/* Says a frame into the text; 0 where it has no words, -1 where they cannot be kept. */
static int say_back(struct back *back, const struct frame *frame)
{
    size_t length;
    long end;

    rewind(back->room);
    back->sheet->periodic_count = back->sheet->trigger_count = 0;
    fprintf(back->room, "line 1");
    if (!say_frame(back->room, back->names, back->sheet, frame)) {
        return 0;
    }
    end = ftell(back->room);
    if (end < 0 || end >= SAID_MOST || ferror(back->room)) {
        return -1;
    }
    rewind(back->room);
    length = fread(back->said, 1, (size_t)end, back->room);
    back->said[length] = 0;
    return length == (size_t)end ? 1 : -1;
}

/* What was written and what was understood, where they differ; 0 comes back. */
static int show_both(const struct made *made, const char *said)
{
    fprintf(stderr, "box: frames: line %lu: what was understood is not what was written\n  ",
            made->number);
    fwrite(made->line.bytes, 1, made->line.length, stderr);
    fprintf(stderr, "\n  %s\n", said);
    return 0;
}

/* Whether a frame says what its sentence says. */
static int one_said_back(struct back *back, const struct made *made)
{
    struct frame frame;
    int same;

    if (!frame_of_digits(made->digits, &frame)) {
        return show_both(made, made->digits);
    }
    back->periodic_count += frame.bytes[0] == PERIODIC;
    back->trigger_count += frame.bytes[0] == TRIGGER;
    same = say_back(back, &frame);
    if (same < 0 || (same == 0 && has_no_words(&frame))) {
        return same < 0 ? -1 : 1;
    }
    if (same == 0) {
        return show_both(made, made->digits);
    }
    same = same_words(back->said, (const char *)made->line.bytes, back->names);
    if (same < 0) {
        return -1;
    }
    return same && counts_right(back, &frame) ? 1 : show_both(made, after_place(back->said));
}

/* Whether each frame says what its sentence says. */
int said_back(const struct names *names, const struct making *making)
{
    struct back back;
    size_t i;
    int good;

    memset(&back, 0, sizeof back);
    back.names = names;
    back.room = tmpfile();
    back.sheet = calloc(1, sizeof *back.sheet);
    back.said = malloc(SAID_MOST);
    good = back.room != NULL && back.sheet != NULL && back.said != NULL ? 1 : -1;
    for (i = 0; good == 1 && i < making->count; i++) {
        good = one_said_back(&back, &making->list[i]);
    }
    if (back.room != NULL) {
        fclose(back.room);
    }
    free(back.sheet);
    free(back.said);
    return good;
}
