/* The foot of each page, by which a print is tied to the input that it was drawn from. */
#include "characters.h"
#include "picture.h"

#include <stdio.h>
#include <string.h>

enum {
    FOOT = 210,
    ENDS = 120, /* characters that are kept at each end of a long name */
    NAME_ROOM = 2 * ENDS * 4 + 8,
    SUM_ROOM = 400,
    TEXT_BYTES = 80
};

/* How many bytes stand here as one character, which is shown as it is where "good" is set. */
static size_t piece_at(const char *text, int *good)
{
    uint32_t number;
    size_t length = character_at(text, &number);

    *good = length != 0 && printable(number);
    return length != 0 ? length : 1;
}

/* Adds one character to a text; what cannot be printed is shown as '?'. */
static void add_piece(char *text, const char *from, size_t length, int good)
{
    if (good) {
        strncat(text, from, length);
    } else {
        strcat(text, "?");
    }
}

/* How many characters a text has. */
static size_t pieces_in(const char *text)
{
    size_t count = 0;
    int good;

    while (*text != 0) {
        text += piece_at(text, &good);
        count++;
    }
    return count;
}

/* A text so that it can be printed, with three dots in place of all but so many at each end. */
static void keep_ends(char *kept, const char *text, size_t ends)
{
    size_t i, length, count = pieces_in(text);
    int good;

    kept[0] = 0;
    for (i = 0; i < count; i++) {
        length = piece_at(text, &good);
        if (i < ends || i + ends >= count) {
            add_piece(kept, text, length, good);
        } else if (i == ends) {
            strcat(kept, "\xE2\x80\xA6");
        }
        text += length;
    }
}

/* What the input is called, of which a long one loses its middle until it fits. */
static void fit_name(char *kept, const char *name, long wide)
{
    size_t ends = ENDS;

    do {
        keep_ends(kept, name, ends);
        ends--;
    } while (ends > 0 && text_wide(kept, FOOT) > wide);
}

/* Writes the foot of a page. */
void write_foot(const struct source *source, const struct plan *plan, size_t page)
{
    static const char drawn[] = "Drawn from what the day program printed for: ";
    char text[sizeof drawn + NAME_ROOM + SUM_ROOM + TEXT_BYTES];
    char number[TEXT_BYTES] = "", name[NAME_ROOM], sum[SUM_ROOM], rest[SUM_ROOM + TEXT_BYTES];
    long y = (long)(page + 1) * PAGE_HIGH - 450;

    if (plan->pages > 1) {
        snprintf(number, sizeof number, "page %lu of %lu", (unsigned long)page + 1,
                 (unsigned long)plan->pages);
        write_text(RIGHT, y, FOOT, AT_END PALE, number);
    }
    keep_ends(sum, source->sum, SUM_ROOM / 10);
    snprintf(rest, sizeof rest, ", %lu line%s, %s", source->lines, source->lines == 1 ? "" : "s",
             sum);
    fit_name(name, source->name, RIGHT - MARGIN - text_wide(drawn, FOOT) - text_wide(rest, FOOT)
                                     - text_wide(number, FOOT) - 2 * FOOT);
    snprintf(text, sizeof text, "%s%s%s", drawn, name, rest);
    write_text(MARGIN, y, FOOT, PALE, text);
}
