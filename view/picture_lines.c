/* The stepped lines. */
#include "picture.h"

#include <stdio.h>

enum {
    DASHES = 5,
    PARTS = 6,
    COMB = 45, /* steps closer than this on both sides form a comb */
    HAIR = 8
};

/* How the level parts are broken: strokes and gaps, in thicknesses; the first is whole. */
static const long dashes[DASHES][PARTS] = {
    {0, 0, 0, 0, 0, 0}, {8, 3, 8, 3, 8, 3}, {2, 2, 2, 2, 2, 2},
    {12, 3, 2, 3, 2, 3}, {6, 2, 6, 2, 2, 2},
};

/* A lane's line in one panel. */
struct line {
    const struct board *board;
    const struct panel *panel;
    unsigned role;
    size_t which;
    long high;
    long low;
    long thick; /* of the level parts that are up */
    long thin;  /* of those that are down */
    long step;  /* of the steps */
};

/* The line of a lane whose top is given. Its steps are no thicker than a minute or a hair. */
static struct line line_of(const struct board *board, const struct plan *plan,
                           const struct panel *panel, size_t which, long top)
{
    struct line line;
    long minute = panel->wide / (long)panel->span;

    line.board = board;
    line.panel = panel;
    line.role = board->lane[which].role;
    line.which = which;
    line.high = top + plan->lane * 18 / 100;
    line.low = top + plan->lane * 86 / 100;
    line.thick = plan->lane / 9 < 24 ? 24 : plan->lane / 9 > 60 ? 60 : plan->lane / 9;
    line.thin = line.thick * 6 / 10;
    line.step = minute > line.thick ? line.thick : minute < 30 ? 30 : minute;
    return line;
}

/* Whether the line is up in a minute. */
static int up(const struct line *line, size_t minute)
{
    return (int)(line->board->day->open[minute] >> line->role & 1);
}

/* The minute, at most the panel's end, at which the line changes next. */
static size_t level_until(const struct line *line, size_t minute)
{
    int open = up(line, minute);

    while (minute < line->panel->to && up(line, minute) == open) {
        minute++;
    }
    return minute;
}

/* How long the line is from one minute to another. */
static long length(const struct line *line, size_t from, size_t to)
{
    return across(line->panel, to) - across(line->panel, from);
}

/* Writes how the level parts of a lane's line are broken. */
static void write_dashes(size_t which, long thick)
{
    const long *dash = dashes[which % DASHES];
    int i;

    if (dash[0] == 0) {
        return;
    }
    printf(" stroke-dasharray=\"");
    for (i = 0; i < PARTS; i++) {
        printf(i == 0 ? "%ld" : " %ld", dash[i] * thick);
    }
    putchar('"');
}

/* Shades what lies under the line while it is up. */
void write_shade(const struct board *board, const struct plan *plan, const struct panel *panel,
                 size_t which, long top)
{
    struct line line = line_of(board, plan, panel, which, top);
    long rise = line.high - line.low;
    size_t at, end;

    printf("<path fill=\"#ddd\" d=\"M%d %ld", LEFT, line.low);
    for (at = panel->from; at < panel->to; at = end) {
        end = level_until(&line, at);
        if (up(&line, at)) {
            printf("v%ldh%ldv%ld", rise, length(&line, at, end), -rise);
        } else {
            printf("h%ld", length(&line, at, end));
        }
    }
    printf("\"/>\n");
}

/* Writes the level parts that are up, or those that are down, in one thickness. */
static void write_parts(const struct line *line, int open)
{
    size_t at, end, to = line->panel->to;
    long past = LEFT;

    printf(" d=\"M%d %ld", LEFT, open ? line->high : line->low);
    for (at = line->panel->from; at < to; at = end) {
        end = level_until(line, at);
        if (up(line, at) == open) {
            printf("m%ld 0h%ld", across(line->panel, at) - past, length(line, at, end));
            past = across(line->panel, end);
        }
    }
    printf("\"/>\n");
}

/*
 * Writes the level parts. Each begins with a stroke, so that the shortest is seen; where those
 * that are up are broken, a hair goes through.
 */
static void write_levels(const struct line *line)
{
    printf("<path fill=\"none\" stroke=\"#000\" stroke-width=\"%ld\"", line->thin);
    write_dashes(line->which, line->thick);
    write_parts(line, 0);
    printf("<path fill=\"none\" stroke=\"#000\" stroke-width=\"%ld\"", line->thick);
    write_dashes(line->which, line->thick);
    write_parts(line, 1);
    if (dashes[line->which % DASHES][0] != 0) {
        printf("<path fill=\"none\" stroke=\"#000\" stroke-width=\"%ld\"", line->thick / 4);
        write_parts(line, 1);
    }
}

/* Whether a step has others close before and after it, as in a comb. */
static int in_comb(const struct line *line, size_t before, size_t at)
{
    return length(line, before, at) < COMB && length(line, at, level_until(line, at)) < COMB;
}

/* Writes the steps, those at the first minute too: the steps of combs, or the others. */
static void write_steps(const struct line *line, int comb)
{
    size_t at = line->panel->from, before = at, next;
    int step = up(line, at) != (int)(roles_before(line->board, at) >> line->role & 1);
    long thick = comb ? HAIR : line->step, past = LEFT;
    long foot = line->low + (line->thin - thick) / 2;
    long rise = line->high - (line->thick - thick) / 2 - foot;

    printf("<path fill=\"none\" stroke=\"#000\" stroke-width=\"%ld\" stroke-linecap=\"square\""
           " d=\"M%d %ld",
           thick, LEFT, foot);
    for (; at < line->panel->to; at = next) {
        next = level_until(line, at);
        if (step && in_comb(line, before, at) == comb) {
            printf("m%ld 0v%ld", across(line->panel, at) - past, rise);
            past = across(line->panel, at);
            rise = -rise;
        }
        before = at;
        step = 1;
    }
    printf("\"/>\n");
}

/* Writes the stepped line of a lane, up where its role is open. */
void write_line(const struct board *board, const struct plan *plan, const struct panel *panel,
                size_t which, long top)
{
    struct line line = line_of(board, plan, panel, which, top);

    write_levels(&line);
    write_steps(&line, 0);
    write_steps(&line, 1);
}

/* Writes a short level line as a sample of a lane's. */
void write_sample(size_t which, long x, long y, long wide)
{
    printf("<path fill=\"none\" stroke=\"#000\" stroke-width=\"45\"");
    write_dashes(which, 45);
    printf(" d=\"M%ld %ldh%ld\"/>\n", x, y, wide);
}
