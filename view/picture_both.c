/*
 * What marks that roles clash: hatching in their lanes and a black bar on the axis. Where it would
 * be too narrow to be seen it is solid, with a triangle over the lanes.
 */
#include "picture.h"

#include <stdio.h>

enum {
    SEEN = 95, /* a hatching that is narrower is not seen */
    BAR = 50   /* the least width of what is solid */
};

/* Where something begins and ends that is drawn from one minute to another. */
struct reach {
    long from;
    long to;
};

/* From one minute to another, and no less than a bar, which stays within the panel. */
static struct reach reach_of(const struct panel *panel, size_t from, size_t to)
{
    struct reach reach;
    long lack, end = LEFT + panel->wide;

    reach.from = across(panel, from);
    reach.to = across(panel, to);
    lack = BAR - (reach.to - reach.from);
    if (lack > 0) {
        reach.from -= lack / 2;
        reach.from = reach.from < LEFT ? LEFT : reach.from > end - BAR ? end - BAR : reach.from;
        reach.to = reach.from + BAR;
    }
    return reach;
}

/* Whether so many minutes are too narrow to be hatched. */
static int is_short(const struct panel *panel, size_t from, size_t to)
{
    return (long)(to - from) * panel->wide < SEEN * (long)panel->span;
}

/* The minute, at most "to", up to which a role is open together with another, or is not. */
static size_t role_until(const struct board *board, unsigned role, size_t minute, size_t to)
{
    uint64_t both = both_open(board, minute) >> role & 1;

    while (minute < to && (both_open(board, minute) >> role & 1) == both) {
        minute++;
    }
    return minute;
}

/* Whether some clash of a role is too short in the panel to be hatched. */
static int role_short(const struct board *board, const struct panel *panel, unsigned role)
{
    size_t at, end;

    for (at = panel->from; at < panel->to; at = end) {
        end = role_until(board, role, at, panel->to);
        if (both_open(board, at) >> role & 1 && is_short(panel, at, end)) {
            return 1;
        }
    }
    return 0;
}

/* Whether some role's clash is too short to be hatched in its panel. */
int any_short(const struct board *board, const struct plan *plan)
{
    size_t i, panels = plan->count;

    for (i = 0; i < panels * board->count; i++) {
        if (role_short(board, &plan->panel[i % panels], board->lane[i / panels].role)) {
            return 1;
        }
    }
    return 0;
}

/* The height of the row of triangles over a panel's lanes; 0 where it has none. */
long points_high(const struct board *board, const struct plan *plan, const struct panel *panel)
{
    size_t at, end;

    for (at = panel->from; at < panel->to; at = end) {
        end = both_until(board, at, panel->to);
        if (both_open(board, at) != 0 && is_short(panel, at, end)) {
            return plan->text * 8 / 10;
        }
    }
    return 0;
}

/* Writes the boxes of a role's lane in which it clashes: those that are short, or the others. */
static void write_boxes(const struct board *board, const struct plan *plan,
                        const struct panel *panel, size_t which, long top, int brief)
{
    unsigned role = board->lane[which].role;
    size_t at, end;
    struct reach reach;

    for (at = panel->from; at < panel->to; at = end) {
        end = role_until(board, role, at, panel->to);
        if (both_open(board, at) >> role & 1 && is_short(panel, at, end) == brief) {
            reach = reach_of(panel, at, end);
            printf("M%ld %ldh%ldv%ldh%ldz", reach.from, top + (long)which * plan->lane,
                   reach.to - reach.from, plan->lane, reach.from - reach.to);
        }
    }
}

/* Writes a black bar along the axis for each stretch in which roles clash. */
static void write_bars(const struct board *board, const struct panel *panel, long axis, long thick)
{
    struct reach reach;
    size_t at, end;

    printf("<path fill=\"none\" stroke=\"#000\" stroke-width=\"%ld\" d=\"", thick);
    for (at = panel->from; at < panel->to; at = end) {
        end = both_until(board, at, panel->to);
        if (both_open(board, at) != 0) {
            reach = reach_of(panel, at, end);
            printf("M%ld %ldH%ld", reach.from, axis - thick / 2, reach.to);
        }
    }
    printf("\"/>\n");
}

/* Writes a triangle over the lanes for each stretch that is too short to be hatched. */
static void write_points(const struct board *board, const struct plan *plan,
                         const struct panel *panel, long top)
{
    long half = plan->text * 4 / 10, high = plan->text * 7 / 10;
    struct reach reach;
    size_t at, end;

    printf("<path d=\"");
    for (at = panel->from; at < panel->to; at = end) {
        end = both_until(board, at, panel->to);
        if (both_open(board, at) != 0 && is_short(panel, at, end)) {
            reach = reach_of(panel, at, end);
            printf("M%ld %ldl%ld %ldh%ldz", (reach.from + reach.to) / 2, top, -half, -high,
                   2 * half);
        }
    }
    printf("\"/>\n");
}

/* Marks the lanes where roles clash. */
void write_both(const struct board *board, const struct plan *plan, const struct panel *panel,
                long top, long axis)
{
    size_t i;

    if (both_open(board, panel->from) == 0
        && both_until(board, panel->from, panel->to) == panel->to) {
        return;
    }
    printf("<path fill=\"url(#both)\" d=\"");
    for (i = 0; i < board->count; i++) {
        write_boxes(board, plan, panel, i, top, 0);
    }
    printf("\"/>\n<path d=\"");
    for (i = 0; i < board->count; i++) {
        write_boxes(board, plan, panel, i, top, 1);
    }
    printf("\"/>\n");
    write_bars(board, panel, axis, plan->text / 4);
    write_points(board, plan, panel, top);
}

/* Writes a piece of hatching, for the words that tell of it. */
void write_hatch_sample(long x, long y)
{
    printf("<path fill=\"url(#both)\" stroke=\"#000\" stroke-width=\"20\""
           " d=\"M%ld %ldh%dv280h-%dz\"/>\n",
           x, y - 240, SAMPLE, SAMPLE);
}

/* Writes a bar and its triangle, for the words that tell of them. */
void write_short_sample(long x, long y)
{
    x += SAMPLE / 2;
    printf("<path d=\"M%ld %ldl-80 -140h160zM%ld %ldh%dv170h-%dz\"/>\n", x, y - 130, x - BAR / 2,
           y - 130, BAR, BAR);
}
