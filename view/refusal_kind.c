/* KIND in words: a kind that there is not, one out of its place, a wrong length, a missing end. */
#include "refusal.h"

#include "kinds.h"

/* Past the last line: an end is missing. */
static void say_missing(const struct sheet *sheet, const struct refusal *refusal)
{
    uint32_t asked = refusal->before > 0 ? number_in(&refusal->above, 1, 4) : 0;

    if (refusal->input.length == 0) {
        printf("the input is empty, and a sheet begins with its header (10)");
        return;
    }
    printf("after line %lu, the last, ", (unsigned long)refusal->place - 1);
    if (!refusal->on_tape) {
        printf("the end of the sheet is missing, the line ");
        say_end_line(sheet);
        return;
    }
    printf("the end of the tape is missing, a line F1");
    if (asked <= DAY_MOST) {
        printf("; for a day up to minute %lu it is ", (unsigned long)asked);
        say_last_line(asked);
    }
}

/* A line of another length than its kind has. */
static struct mark say_wrong_size(const struct line *line)
{
    say_size_by_kind(line);
    printf(", and this line has %lu", (unsigned long)line->length);
    return has_counts(line) ? mark_of(3, 4) : mark_of(1, 2);
}

/* A line of the tape before the sheet has ended: the end comes later, or not at all. */
static void say_early(const struct sheet *sheet, const struct refusal *refusal, unsigned kind)
{
    unsigned long end = line_of_end(refusal->input);

    printf("this is ");
    say_kind(kind);
    if (end != 0) {
        printf(", and the sheet ends only with line %lu (F0): it must stand after that", end);
    } else {
        printf(", and before it the end of the sheet is missing, the line ");
        say_end_line(sheet);
    }
}

/* A kind that may stand elsewhere and not here. */
static void say_elsewhere(const struct sheet *sheet, const struct refusal *refusal, unsigned kind)
{
    if (refusal->on_tape) {
        printf("the sheet ended with line %lu (F0), and ",
               (unsigned long)refusal->place - 1 - refusal->before);
        say_kind(kind);
        printf(" cannot stand after that");
    } else if (refusal->before == 0) {
        printf("the first line must be the header (10), and this is ");
        say_kind(kind);
    } else if (kind == HEADER) {
        printf("this is a second header (10); a sheet has one, its first line");
    } else {
        say_early(sheet, refusal, kind);
    }
}

/* A kind that there is not, and those that may stand here. */
static void say_unknown(const struct refusal *refusal, unsigned kind)
{
    printf("there is no kind %02X; ", kind);
    if (refusal->on_tape) {
        printf("a tape has requests (40) and last its end (F1)");
    } else if (refusal->before == 0) {
        printf("the first line must be the header (10)");
    } else {
        printf("after its header a sheet has periodic rows (20), triggers (30) and last its end"
               " (F0)");
    }
}

/* Whether a line of this kind may stand here. */
static int in_place(const struct refusal *refusal, unsigned kind)
{
    if (refusal->on_tape) {
        return kind == REQUEST_FRAME || kind == LAST_FRAME;
    }
    if (refusal->before == 0) {
        return kind == HEADER;
    }
    return kind == PERIODIC || kind == TRIGGER || kind == END;
}

/* KIND: which of them it is. */
struct mark say_kind_fault(const struct sheet *sheet, const struct refusal *refusal)
{
    unsigned kind = byte_in(&refusal->line, 0);

    if (refusal->at_end) {
        say_missing(sheet, refusal);
        return mark_of(1, 0);
    }
    if (refusal->on_tape && refusal->before > 0 && begins(&refusal->above, "F1")) {
        printf("the tape ended with line %lu (F1), and this line stands after it",
               (unsigned long)refusal->place - 1);
        return mark_of(1, refusal->line.length);
    }
    if (in_place(refusal, kind)) {
        return say_wrong_size(&refusal->line);
    }
    if (name_of_kind(kind) != NULL) {
        say_elsewhere(sheet, refusal, kind);
    } else {
        say_unknown(refusal, kind);
    }
    return mark_of(1, 2);
}
