/* FRAME in words: the first character that is no digit, or what is wrong at the end of the line. */
#include "refusal.h"

#include "kinds.h"

/* An empty line; often one that ends the input. */
static void say_empty(const struct refusal *refusal)
{
    const uint8_t *at = refusal->line.bytes + 1;
    const uint8_t *end = refusal->input.bytes + refusal->input.length;

    printf("the line is empty");
    if (at == end) {
        printf(", and it is the last");
        return;
    }
    while (at < end && *at == 0x0A) {
        at++;
    }
    printf(at == end ? ", as are all after it" : "");
}

/*
 * A line of digits whose number is odd, and how many its kind has; not where that is more than any
 * frame has, since a lost digit moves what a trigger counts.
 */
static void say_odd(const struct line *line)
{
    size_t size = size_by_kind(line);

    printf("the line has ");
    say_count(stdout, (unsigned)line->length, "digit");
    printf(", where the number must be even%s", line->ended ? "" : ", and no line end (0A)");
    if (size != 0 && size <= 2 * FRAME_MOST) {
        printf("; ");
        say_size_by_kind(line);
    }
}

/* FRAME: what stands at the column. */
struct mark say_frame_fault(const struct refusal *refusal)
{
    const struct line *line = &refusal->line;
    size_t column = refusal->column;

    if (column == 0 || column > line->length + 1) {
        printf("the line is no frame");
        return mark_of(1, 0);
    }
    if (column <= line->length) {
        return mark_of(column, say_character(refusal, column - 1));
    }
    if (line->length == 0) {
        say_empty(refusal);
    } else if (line->length % 2 != 0) {
        say_odd(line);
    } else {
        printf("the last line has no line end (0A)");
    }
    return mark_of(column, 1);
}
