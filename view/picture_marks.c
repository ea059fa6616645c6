/*
 * The numbers above the lines: each stands as near as it can to its own minute and none
 * overlaps another. Numbers that touch form a row, which is moved as one: its place is the mean
 * of what its members would like. Numbers lie level where all find room so, else they stand
 * upright.
 */
#include "picture.h"

/* A row of numbers that touch: its first, how many, and the sum of the places they would like. */
struct row {
    size_t first;
    size_t count;
    long sum;
};

/* Where a minute begins. */
long across(const struct panel *panel, size_t minute)
{
    return LEFT + (long)(minute - panel->from) * panel->wide / (long)panel->span;
}

/* How many digits a number has. */
static long digits_of(size_t number)
{
    long digits = 1;

    for (; number >= 10; number /= 10) {
        digits++;
    }
    return digits;
}

/* How wide the panel's numbers are where they lie level, with hours and minutes below them. */
static long level_wide(const struct plan *plan, const struct panel *panel)
{
    long wide = digits_of(panel->to - 1) * 64;

    return (plan->clock && wide < 290 ? 290 : wide) * plan->text / 100;
}

/* How high the panel's numbers are, with hours and minutes below or after them. */
long marks_high(const struct plan *plan, const struct panel *panel, const struct marks *marks)
{
    long high = marks->upright ? digits_of(panel->to - 1) * 64 : 80;

    if (plan->clock) {
        high += marks->upright ? 350 : 110;
    }
    return high * plan->text / 100;
}

/* Whether the minute is drawn large elsewhere. */
static int drawn_large(const struct plan *plan, const struct panel *panel, size_t minute)
{
    size_t i;

    for (i = plan->days; i < plan->count && panel->number == 0; i++) {
        if (minute >= plan->panel[i].from && minute < plan->panel[i].to) {
            return 1;
        }
    }
    return 0;
}

/* The minutes at which a line changes and which are not drawn large elsewhere. */
static void find_marks(const struct board *board, const struct plan *plan,
                       const struct panel *panel, struct marks *marks)
{
    size_t minute;

    marks->count = 0;
    for (minute = panel->from; minute < panel->to; minute++) {
        if (changes(board, minute) && !drawn_large(plan, panel, minute)) {
            marks->minute[marks->count++] = minute;
        }
    }
}

/* The place of a row's first number. */
static long place_of(const struct row *row, long apart)
{
    return row->sum / (long)row->count + (long)row->first * apart;
}

/* Joins the last two rows for as long as they overlap; the number of rows comes back. */
static size_t join_rows(struct row *rows, size_t count, long apart)
{
    struct row *last, *before;

    for (; count > 1; count--) {
        last = &rows[count - 1];
        before = &rows[count - 2];
        if (place_of(last, apart) >= place_of(before, apart) + (long)before->count * apart) {
            break;
        }
        before->count += last->count;
        before->sum += last->sum;
    }
    return count;
}

/*
 * Gives the numbers of a row their places. Where one would stand too far from its minute, the
 * whole row is crowded; how many of its numbers are comes back.
 */
static size_t place_row(const struct row *row, const struct panel *panel, struct marks *marks,
                        long apart, long reach)
{
    long least = LEFT + (long)row->first * apart;
    long most = LEFT + panel->wide - (long)(marks->count - row->first - 1) * apart;
    long at = place_of(row, apart), off;
    size_t i, last = row->first + row->count;
    char crowded = least > most;

    at = at < least ? least : at;
    at = at > most ? most : at;
    for (i = row->first; i < last; i++) {
        marks->at[i] = at + (long)(i - row->first) * apart;
        off = marks->at[i] - across(panel, marks->minute[i]);
        crowded |= off > reach || off < -reach;
    }
    for (i = row->first; i < last; i++) {
        marks->crowded[i] = crowded;
    }
    return crowded ? row->count : 0;
}

/* Gives the marks their places, so far apart; how many are crowded comes back. */
static size_t place_rows(const struct panel *panel, struct marks *marks, long apart, long reach)
{
    struct row rows[MARKS_MOST];
    size_t i, count = 0, crowded = 0;

    for (i = 0; i < marks->count; i++) {
        rows[count].first = i;
        rows[count].count = 1;
        rows[count].sum = across(panel, marks->minute[i]) - (long)i * apart;
        count = join_rows(rows, count + 1, apart);
    }
    for (i = 0; i < count; i++) {
        crowded += place_row(&rows[i], panel, marks, apart, reach);
    }
    return crowded;
}

/* Finds the panel's marks and gives them their places. */
void place_marks(const struct board *board, const struct plan *plan, const struct panel *panel,
                 struct marks *marks)
{
    long wide = level_wide(plan, panel) + plan->text / 2;

    find_marks(board, plan, panel, marks);
    marks->printed = marks->count;
    marks->upright = place_rows(panel, marks, wide, wide * 12 / 10) > 0;
    if (marks->upright) {
        marks->printed -= place_rows(panel, marks, plan->text * 11 / 10, plan->text * 4);
    }
}
