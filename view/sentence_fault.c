/* What is wrong with a sentence: one line that says where and what, and the line with a mark. */
#include "sentences.h"

#include "characters.h"

#include <stdarg.h>

enum { BEFORE_MOST = 36 }; /* characters before the mark that are shown of a long line */

/* How many bytes the character has that begins here; a byte of none counts as one. */
static size_t step(const char *at, int *shown)
{
    uint32_t number;
    size_t length = character_at(at, &number);

    *shown = length > 0 && printable(number);
    return length > 0 ? length : 1;
}

/* How many characters stand from one place of a line to another. */
static size_t characters_in(const char *from, const char *to)
{
    size_t count = 0;
    int shown;

    while (from < to) {
        from += step(from, &shown);
        count++;
    }
    return count;
}

/* Where a line ends, without the blanks at its end; not before the mark. */
static const char *end_of_line(const struct reading *reading, const char *mark)
{
    const char *end = (const char *)reading->line.bytes + reading->line.length;

    while (end > mark && end[-1] == ' ') {
        end--;
    }
    return end;
}

/* The characters of a line from one, from 0, to before another; a ? for what does not print. */
static void show_part(const char *at, size_t from, size_t to)
{
    size_t i, length;
    int shown;

    for (i = 0; i < to; i++) {
        length = step(at, &shown);
        if (i >= from && shown) {
            fwrite(at, 1, length, stderr);
        } else if (i >= from) {
            fputc('?', stderr);
        }
        at += length;
    }
}

/* Shows a line, of a long one the part around the mark, and below it the mark. */
static void show_mark(const struct reading *reading, const char *mark)
{
    const char *begin = (const char *)reading->line.bytes;
    size_t all = characters_in(begin, end_of_line(reading, mark));
    size_t before = characters_in(begin, mark);
    size_t from = 0, to = all, i;

    if (all > SHOWN_MOST && before >= SHOWN_MOST - BEFORE_MOST) {
        from = before - BEFORE_MOST < all - SHOWN_MOST ? before - BEFORE_MOST : all - SHOWN_MOST;
    }
    to = all - from > SHOWN_MOST ? from + SHOWN_MOST : all;
    fprintf(stderr, from > 0 ? "  ..." : "  ");
    show_part(begin, from, to);
    fprintf(stderr, to < all ? "...\n" : "\n");
    for (i = (from > 0 ? 5 : 2) + before - from; i > 0; i--) {
        fputc(' ', stderr);
    }
    fprintf(stderr, "^\n");
}

/*
 * Says what is wrong, and where. What is missing at the end of a sentence is missing right behind
 * its last word.
 */
int fault(const struct reading *reading, const char *at, const char *format, ...)
{
    const char *begin = (const char *)reading->line.bytes;
    va_list values;

    if (reading->quiet) {
        return 0;
    }
    while (begin != NULL && ends(at) && at > begin && at[-1] == ' ') {
        at--;
    }
    fprintf(stderr, "box: frames: line %lu, column %lu: ", reading->number,
            begin == NULL ? 1 : (unsigned long)characters_in(begin, at) + 1);
    va_start(values, format);
    vfprintf(stderr, format, values);
    va_end(values);
    fputc('\n', stderr);
    if (begin != NULL) {
        show_mark(reading, at);
    }
    return 0;
}
