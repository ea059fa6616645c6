/* The refused line, with carets under what is wrong in it. */
#include "refusal.h"

enum { BEFORE_MOST = 36 }; /* characters before the mark that are shown of a long line */

/* A mark of its parts. */
struct mark mark_of(size_t column, size_t width)
{
    struct mark made;

    made.column = column;
    made.width = width;
    return made;
}

/* Where the shown part of a line begins, from 0: the mark is in it. */
static size_t shown_from(const struct line *line, struct mark mark)
{
    size_t at;

    if (line->length <= SHOWN_MOST || mark.column <= SHOWN_MOST - BEFORE_MOST) {
        return 0;
    }
    at = mark.column - 1 - BEFORE_MOST;
    return at < line->length - SHOWN_MOST ? at : line->length - SHOWN_MOST;
}

/* So many of the same character. */
static void repeat(char character, size_t count)
{
    for (; count > 0; count--) {
        putchar(character);
    }
}

/* The characters of a line from one to before another; whether a ? stands for any of them. */
static int show_characters(const struct line *line, size_t from, size_t to)
{
    int hidden = 0;

    for (; from < to; from++) {
        if (line->bytes[from] >= 0x20 && line->bytes[from] <= 0x7E) {
            putchar(line->bytes[from]);
        } else {
            putchar('?');
            hidden = 1;
        }
    }
    return hidden;
}

/*
 * Shows a line, of a long one the part around the mark, and below it carets under what is marked.
 * What is no ASCII character that prints is shown as a ?, one for each byte, so that the carets
 * stand right.
 */
void show_marked(const struct line *line, struct mark mark)
{
    size_t from = shown_from(line, mark);
    size_t to = line->length - from > SHOWN_MOST ? from + SHOWN_MOST : line->length;
    size_t before = mark.column - 1;
    size_t widest = before < to ? to - before : 1;
    int hidden;

    printf(from > 0 ? "  ..." : "  ");
    hidden = show_characters(line, from, to);
    printf(to < line->length ? "...\n" : "\n");
    if (mark.width > 0) {
        repeat(' ', (from > 0 ? 5 : 2) + before - from);
        repeat('^', mark.width < widest ? mark.width : widest);
        putchar('\n');
    }
    if (hidden) {
        printf("  (each ? is a byte that cannot be shown)\n");
    }
}
