/* One panel: the lines, the numbers above them, the axis below, and the names before. */
#include "picture.h"

#include <stdio.h>

enum { STEPS = 10 };

/* The distances of minutes that ticks and their numbers may have. */
static const size_t steps[STEPS] = {1, 2, 5, 10, 20, 30, 60, 120, 240, 1440};

/* Where the parts of a panel begin, from above to below. */
struct parts {
    long numbers;
    long brackets;
    long points;
    long lanes;
    long axis;
};

/* The parts of a panel. */
static struct parts parts_of(const struct board *board, const struct plan *plan,
                             const struct panel *panel)
{
    struct parts parts;

    parts.numbers = panel->top;
    parts.brackets = parts.numbers + panel->strip;
    parts.points = parts.brackets + bracket_high(plan, panel);
    parts.lanes = parts.points + panel->points;
    parts.axis = parts.lanes + (long)(board->count == 0 ? 1 : board->count) * plan->lane
                 + plan->text * 3 / 10;
    return parts;
}

/* The least distance of minutes that lies this far apart. */
static size_t step_for(const struct panel *panel, long apart)
{
    size_t i = 0;

    while (i < STEPS - 1 && (long)steps[i] * panel->wide < apart * (long)panel->span) {
        i++;
    }
    return steps[i];
}

/* The distance of numbers on the axis. */
static size_t number_step(const struct board *board, const struct plan *plan,
                          const struct panel *panel)
{
    return step_for(panel, plan->text * (has_clock(board) ? 38 : 28) / 10);
}

/* The first minute of the panel that is a multiple of the step. */
static size_t first_of(const struct panel *panel, size_t step)
{
    return (panel->from + step - 1) / step * step;
}

/* Writes light lines up from the numbers of the axis. */
static void write_grid(const struct board *board, const struct plan *plan,
                       const struct panel *panel, const struct parts *parts)
{
    size_t step = number_step(board, plan, panel), at;

    printf("<path fill=\"none\" stroke=\"#bbb\" stroke-width=\"10\" d=\"");
    for (at = first_of(panel, step); at < panel->to; at += step) {
        printf("M%ld %ldV%ld", across(panel, at), parts->axis, parts->lanes);
    }
    printf("\"/>\n");
}

/* Writes the axis and a tick for each minute, or for as many as can be told apart. */
static void write_ticks(const struct board *board, const struct plan *plan,
                        const struct panel *panel, const struct parts *parts)
{
    size_t step = step_for(panel, TICK_APART), large = number_step(board, plan, panel), at;
    long tick;

    printf("<path fill=\"none\" stroke=\"#000\" stroke-width=\"15\" d=\"M%d %ldH%ld", LEFT,
           parts->axis, across(panel, panel->to));
    for (at = first_of(panel, step); at < panel->to; at += step) {
        tick = at % large == 0 ? 60 : 2 * at % large == 0 ? 42 : 26;
        printf("M%ld %ldv%ld", across(panel, at), parts->axis, tick * plan->text / 100);
    }
    printf("\"/>\n");
}

/* Writes the numbers of the axis: minutes, and below them hours and minutes on a long day. */
static void write_axis(const struct board *board, const struct plan *plan,
                       const struct panel *panel, const struct parts *parts)
{
    size_t step = number_step(board, plan, panel), at;
    long y = parts->axis + plan->text * 15 / 10, below = y + plan->text * 11 / 10;
    char text[32];

    write_text(LEFT - 3 * plan->text, y, plan->text * 9 / 10, AT_END, "minute");
    if (has_clock(board)) {
        write_text(LEFT - 3 * plan->text, below, plan->text * 9 / 10, AT_END, "h:mm");
    }
    for (at = first_of(panel, step); at < panel->to; at += step) {
        snprintf(text, sizeof text, "%lu", (unsigned long)at);
        write_text(across(panel, at), y, plan->text, MIDDLE, text);
        if (has_clock(board)) {
            clock_text(text, sizeof text, at);
            write_text(across(panel, at), below, plan->text,
                       MIDDLE PALE, text);
        }
    }
}

/* Writes the number of a change, and hours and minutes below it or after it. */
static void write_number(const struct plan *plan, const struct marks *marks, size_t which, long y)
{
    size_t minute = marks->minute[which];
    long at = marks->at[which];
    char text[32], clock[32] = "";

    snprintf(text, sizeof text, "%lu", (unsigned long)minute);
    if (plan->clock) {
        clock_text(clock, sizeof clock, minute);
    }
    if (marks->upright) {
        printf("<text transform=\"translate(%ld %ld)rotate(-90)\" font-size=\"%ld\">%s"
               "<tspan dx=\"%ld\" fill=\"#444\">%s</tspan></text>\n",
               at + plan->text * 36 / 100, y, plan->text, text, plan->text / 2, clock);
        return;
    }
    if (plan->clock) {
        write_text(at, y, plan->text, MIDDLE PALE, clock);
        y -= plan->text * 11 / 10;
    }
    write_text(at, y, plan->text, MIDDLE, text);
}

/* Writes the numbers of changes, each with a thin line from it down to the axis. */
static void write_marks(const struct board *board, const struct plan *plan,
                        const struct panel *panel, const struct parts *parts)
{
    struct marks marks;
    long foot = parts->brackets - plan->text * 13 / 10;
    size_t i;

    place_marks(board, plan, panel, &marks);
    for (i = 0; i < marks.count; i++) {
        if (!marks.crowded[i]) {
            printf("<path fill=\"none\" stroke=\"#777\" stroke-width=\"10\""
                   " d=\"M%ld %ldL%ld %ldV%ld\"/>\n",
                   marks.at[i], foot, across(panel, marks.minute[i]), parts->brackets, parts->axis);
            write_number(plan, &marks, i, foot - plan->text * 15 / 100);
        }
    }
}

/* Writes a bracket over what is drawn large elsewhere, with the number of the close-up. */
static void write_bracket(const struct plan *plan, const struct panel *panel,
                          const struct panel *close, const struct parts *parts)
{
    long from = across(panel, close->from) + 20, to = across(panel, close->to) - 20, wide;
    long y = parts->brackets + plan->text * 7 / 10, foot = parts->points - plan->text / 10;
    char text[32];

    snprintf(text, sizeof text, "%lu", (unsigned long)close->number);
    wide = text_wide(text, plan->text * 11 / 10) / 2 + plan->text / 5;
    printf("<path fill=\"none\" stroke=\"#000\" stroke-width=\"20\""
           " d=\"M%ld %ldV%ldH%ldM%ld %ldH%ldV%ld\"/>\n",
           from, foot, y, (from + to) / 2 - wide, (from + to) / 2 + wide, y, to, foot);
    write_text((from + to) / 2, y + plan->text * 4 / 10, plan->text * 11 / 10,
               MIDDLE BOLD, text);
}

/* Writes the brackets of a panel. */
static void write_brackets(const struct plan *plan, const struct panel *panel,
                           const struct parts *parts)
{
    size_t i;

    for (i = plan->days; i < plan->count; i++) {
        if (close_up_of(panel, &plan->panel[i])) {
            write_bracket(plan, panel, &plan->panel[i], parts);
        }
    }
}

/* Writes which minutes the panel has, before its numbers. */
static void write_caption(const struct plan *plan, const struct panel *panel)
{
    long size = plan->text > 240 ? 240 : plan->text;
    char text[64];

    if (panel->number != 0) {
        snprintf(text, sizeof text, "Close-up %lu", (unsigned long)panel->number);
    } else if (plan->days > 1) {
        snprintf(text, sizeof text, "Day %lu", (unsigned long)(panel->from / DAY_MINUTES + 1));
    } else {
        return;
    }
    write_text(MARGIN, panel->top + size, size * 12 / 10, BOLD, text);
    snprintf(text, sizeof text, "minutes %lu to %lu", (unsigned long)panel->from,
             (unsigned long)panel->to - 1);
    write_text(MARGIN, panel->top + size * 23 / 10, size, "", text);
}

/* Writes a panel on its page. */
void write_panel(const struct board *board, const struct plan *plan, const struct panel *panel)
{
    struct parts parts = parts_of(board, plan, panel);
    size_t i;

    write_caption(plan, panel);
    write_grid(board, plan, panel, &parts);
    for (i = 0; i < board->count; i++) {
        write_shade(board, plan, panel, i, parts.lanes + (long)i * plan->lane);
    }
    write_both(board, plan, panel, parts.lanes, parts.axis);
    write_marks(board, plan, panel, &parts);
    write_brackets(plan, panel, &parts);
    for (i = 0; i < board->count; i++) {
        write_line(board, plan, panel, i, parts.lanes + (long)i * plan->lane);
    }
    write_lane_names(board, plan, parts.lanes);
    if (board->count == 0) {
        write_text(LEFT + 200, parts.lanes + plan->lane * 6 / 10, plan->text * 12 / 10, "",
                   "No role is open in any minute.");
    }
    write_ticks(board, plan, panel, &parts);
    write_axis(board, plan, panel, &parts);
}
