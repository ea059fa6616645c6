/* Sheets and tapes with one fault, the seed walking through them all, or with several in one line. */
#include "gen.h"

enum { SHEET_SORTS = 4, TAPE_SORTS = 2, PLACES = 3, LAYERS = 6 };

static struct book book; /* the book in the making */
static struct text page; /* the sheet in the making */

/* The sorts of lines of which one gets the fault: those of a sheet or those of a tape. */
struct range {
    enum sort first;
    uint32_t count;
};

static const struct range of_sheet = {HEADER_LINE, SHEET_SORTS}, of_tape = {REQUEST_LINE, TAPE_SORTS};

/* Puts a good sheet of at least three rows of each sort. */
static void start_sheet(struct dice *dice, struct text *text)
{
    book_for_edges(dice, &book);
    put_mixed(dice, text, &book, between(dice, 20, 80));
}

/* A tape of three to nine requests, the first of them after instant 1. */
static void tape_for_faults(struct dice *dice)
{
    struct tape *tape = &book.tape;
    uint32_t t = between(dice, 3, 300), step = chance(dice, 50) ? 3 : 500, i;

    tape->count = between(dice, 3, 9);
    for (i = 0; i < tape->count; i++) {
        tape->instants[i] = t;
        tape->requests[i] = good_request(dice, book.role_count);
        t += below(dice, step);
    }
    tape->last = t;
}

/* Puts a good sheet and a good tape. */
static void start_day(struct dice *dice, struct text *text)
{
    start_sheet(dice, text);
    tape_for_faults(dice);
    put_tape(text, &book);
}

/* The next part of a walk: a number below a count, which is taken off the rest of the seed. */
static uint32_t next_part(uint64_t *rest, uint32_t count)
{
    uint32_t part = (uint32_t)(*rest % count);

    *rest /= count;
    return part;
}

/* Types one line wrongly: every way, in each sort of line, in three of each, at each column. */
static void one_typing(struct dice *dice, struct text *text, const struct range *range, uint64_t seed)
{
    uint32_t way = next_part(&seed, typings());
    enum sort sort = (enum sort)(range->first + next_part(&seed, range->count));
    enum where where = (enum where)next_part(&seed, PLACES);

    mistype(dice, text, line_of(dice, text, sort, where), way, (uint32_t)(seed % 1000));
}

/* Brings one field outside its limit: every wrong value of every sort of line, in three of each. */
static void one_wrong(struct dice *dice, struct text *text, const struct range *range, uint64_t seed)
{
    enum where where = (enum where)next_part(&seed, PLACES);
    enum sort sort = range->first;
    uint32_t which = 0, i;

    for (i = 0; i < range->count; i++) {
        which += wrong_fields((enum sort)(range->first + i));
    }
    which = (uint32_t)(seed % which);
    while (which >= wrong_fields(sort)) {
        which -= wrong_fields(sort);
        sort = (enum sort)(sort + 1);
    }
    set_wrong(dice, text, line_of(dice, text, sort, where), sort, which, 1);
}

/* Adds to the wrong fields of a line a fault of another sort, or one in another line. */
static void add_layer(struct dice *dice, struct text *text, const struct range *range, uint32_t line,
                      uint32_t layer)
{
    enum sort sort = (enum sort)(range->first + below(dice, range->count));
    uint32_t times = between(dice, 1, 3);

    if (layer == 1) {
        mistype(dice, text, line, 1, below(dice, 100));
    } else if (layer == 2) {
        for (; times > 0; times--) {
            mistype(dice, text, line, between(dice, 0, 5), below(dice, 1000));
        }
    } else if (layer == 3) {
        line = line_of(dice, text, sort, ANY_ROW);
        set_wrong(dice, text, line, sort, below(dice, 1000), chance(dice, 50));
    } else if (layer == 4) {
        set_wrong_size(dice, text, line);
    } else if (layer == 5) {
        mistype(dice, text, line_of(dice, text, sort, ANY_ROW), below(dice, typings()), below(dice, 1000));
    }
}

/* Every pair of wrong fields in one line, at times a third, and one of the layers over them. */
static void several(struct dice *dice, struct text *text, const struct range *range, uint64_t seed)
{
    uint32_t layer = next_part(&seed, LAYERS);
    enum sort sort = (enum sort)(range->first + next_part(&seed, range->count));
    uint32_t line = line_of(dice, text, sort, ANY_ROW), one = next_part(&seed, wrong_fields(sort));

    set_wrong(dice, text, line, sort, one, 1);
    set_wrong(dice, text, line, sort, next_part(&seed, wrong_fields(sort)), 0);
    if (chance(dice, 30)) {
        set_wrong(dice, text, line, sort, below(dice, wrong_fields(sort)), 0);
    }
    add_layer(dice, text, range, line, layer);
}

/* A sheet with one line typed wrongly. */
void read_frame(struct dice *dice, uint64_t seed, struct text *out)
{
    text_clear(&page);
    start_sheet(dice, &page);
    one_typing(dice, &page, &of_sheet, seed);
    wrap_read(dice, out, &page);
}

/* A sheet with one field outside its limit. */
void read_wrong(struct dice *dice, uint64_t seed, struct text *out)
{
    text_clear(&page);
    start_sheet(dice, &page);
    one_wrong(dice, &page, &of_sheet, seed);
    wrap_read(dice, out, &page);
}

/* A sheet with several faults, most of them in one line. */
void read_faults(struct dice *dice, uint64_t seed, struct text *out)
{
    text_clear(&page);
    start_sheet(dice, &page);
    several(dice, &page, &of_sheet, seed);
    wrap_read(dice, out, &page);
}

/* The same sheets with a tape after them. */
void sheet_frame(struct dice *dice, uint64_t seed, struct text *out)
{
    start_sheet(dice, out);
    one_typing(dice, out, &of_sheet, seed);
    put_tape(out, &book);
}

/* One field of the sheet outside its limit, a tape after it. */
void sheet_wrong(struct dice *dice, uint64_t seed, struct text *out)
{
    start_sheet(dice, out);
    one_wrong(dice, out, &of_sheet, seed);
    put_tape(out, &book);
}

/* Several faults in the sheet, a tape after it. */
void sheet_faults(struct dice *dice, uint64_t seed, struct text *out)
{
    start_sheet(dice, out);
    several(dice, out, &of_sheet, seed);
    put_tape(out, &book);
}

/* A day with one line of the tape typed wrongly. */
void day_frame(struct dice *dice, uint64_t seed, struct text *out)
{
    start_day(dice, out);
    one_typing(dice, out, &of_tape, seed);
}

/* A day with one field of the tape outside its limit. */
void day_wrong(struct dice *dice, uint64_t seed, struct text *out)
{
    start_day(dice, out);
    one_wrong(dice, out, &of_tape, seed);
}

/* A day with several faults in the tape, most of them in one line. */
void day_faults(struct dice *dice, uint64_t seed, struct text *out)
{
    start_day(dice, out);
    several(dice, out, &of_tape, seed);
}
