/*
 * Where everything stands. A day of up to 24 hours is one panel, a longer one has a panel for
 * each 24 hours. Where a panel's changes are too many to be printed, or a clash is too short to
 * be seen, the hours around are drawn once more as a close-up in which each minute has its tick.
 */
#include "picture.h"

enum {
    TEXT_LEAST = 210,
    TEXT_MOST = 320,
    LANE_MOST = 4000,
    SHORT_CLASH = 200,
    NO_PAGES = 10000
};

/* Whether hours and minutes stand beside the minutes: on days of more than four hours. */
int has_clock(const struct board *board)
{
    return board->day->count > CLOSE_MINUTES;
}

/* Whether each minute of the panel has a tick. */
static int all_ticks(const struct panel *panel)
{
    return panel->wide >= (long)panel->span * TICK_APART;
}

/* Whether a panel of the day has the minutes of a close-up. */
int close_up_of(const struct panel *panel, const struct panel *close)
{
    return panel->number == 0 && close->from >= panel->from && close->to <= panel->to;
}

/* The height of the row that says what is drawn large elsewhere. */
long bracket_high(const struct plan *plan, const struct panel *panel)
{
    size_t i;

    for (i = plan->days; i < plan->count; i++) {
        if (close_up_of(panel, &plan->panel[i])) {
            return plan->text * 14 / 10;
        }
    }
    return 0;
}

/* The height of the axis: a gap, its ticks, and one or two rows of numbers. */
static long axis_high(const struct board *board, const struct plan *plan)
{
    return plan->text * (has_clock(board) ? 33 : 22) / 10;
}

/* Adds a panel. */
static void add_panel(struct plan *plan, size_t from, size_t to, size_t span, size_t number)
{
    struct panel *panel = &plan->panel[plan->count++];

    panel->from = from;
    panel->to = to;
    panel->span = span;
    panel->wide = span < WIDE / COLUMN_MOST ? (long)span * COLUMN_MOST : WIDE;
    panel->number = number;
    panel->strip = 0;
    panel->points = 0;
    panel->page = 0;
    panel->top = 0;
}

/* The panels of the day. A last minute that would stand alone goes to the panel before it. */
static void add_days(struct plan *plan, size_t minutes)
{
    size_t from, to, odd = minutes > 1 && minutes % DAY_MINUTES == 1;
    size_t span = minutes < DAY_MINUTES ? minutes : DAY_MINUTES + odd;

    for (from = 0; from < minutes - odd; from += DAY_MINUTES) {
        to = from + DAY_MINUTES < minutes - odd ? from + DAY_MINUTES : minutes;
        add_panel(plan, from, to, span, 0);
    }
    plan->days = plan->count;
}

/* Asks for close-ups of the clashes that are too short to be seen. */
static void want_clashes(const struct board *board, const struct panel *panel, char *wanted)
{
    size_t at, end;

    for (at = panel->from; at < panel->to; at = end) {
        end = both_until(board, at, panel->to);
        if (both_open(board, at) != 0 && across(panel, end) - across(panel, at) < SHORT_CLASH) {
            wanted[at - panel->from] = 1;
            wanted[end - 1 - panel->from] = 1;
        }
    }
}

/* Asks for close-ups of the changes whose numbers find no room; 0 when all do. */
static int want_crowds(const struct board *board, const struct plan *plan,
                       const struct panel *panel, char *wanted)
{
    struct marks marks;
    size_t i;

    place_marks(board, plan, panel, &marks);
    for (i = 0; i < marks.count; i++) {
        if (marks.crowded[i]) {
            wanted[marks.minute[i] - panel->from] = 1;
        }
    }
    return marks.printed < marks.count;
}

/*
 * Adds a close-up of whole hours that begins with the hour of minute "at", or at "least", and
 * goes on to the last wanted minute within its length; where it ends comes back.
 */
static size_t add_close_up(struct plan *plan, const struct panel *panel, const char *wanted,
                           size_t at, size_t least)
{
    size_t from = at < 5 ? 0 : (at - 5) / 60 * 60, last = at, to;

    from = from < least ? least : from;
    for (; at < panel->to && at < from + CLOSE_MINUTES; at++) {
        last = wanted[at - panel->from] ? at : last;
    }
    to = from + (last + 5 - from) / 60 * 60 + 60;
    to = to > from + CLOSE_MINUTES ? from + CLOSE_MINUTES : to;
    to = to + 1 >= panel->to ? panel->to : to;
    add_panel(plan, from, to, to - from, plan->count - plan->days + 1);
    return to;
}

/* Finds the close-ups of one panel of the day: more are asked for until every number has room. */
static void find_close_ups(const struct board *board, struct plan *plan, const struct panel *panel)
{
    char wanted[MARKS_MOST] = {0};
    size_t at, end, kept = plan->count;

    want_clashes(board, panel, wanted);
    do {
        plan->count = kept;
        for (at = end = panel->from; at < panel->to;) {
            if (wanted[at - panel->from]) {
                at = end = add_close_up(plan, panel, wanted, at, end);
            } else {
                at++;
            }
        }
    } while (want_crowds(board, plan, panel, wanted));
}

/* The height of the numbers above the lines, or of what is written beside them. */
static long strip_high(const struct board *board, const struct plan *plan,
                       const struct panel *panel)
{
    struct marks marks;
    long high = plan->count > 1 ? plan->text * 28 / 10 : plan->text / 2, needed;

    place_marks(board, plan, panel, &marks);
    if (marks.printed == 0) {
        return high;
    }
    needed = marks_high(plan, panel, &marks) + plan->text * 17 / 10;
    return needed > high ? needed : high;
}

/* Puts the panels one below another, and then the table, on as many pages as they take. */
static void flow(const struct board *board, struct plan *plan)
{
    long y = MARGIN + write_head(board, plan, 0), high;
    size_t i, lanes = board->count == 0 ? 1 : board->count;

    plan->pages = 1;
    for (i = 0; i < plan->count; i++) {
        high = plan->panel[i].strip + bracket_high(plan, &plan->panel[i]) + plan->panel[i].points
               + (long)lanes * plan->lane + axis_high(board, plan) + plan->text * 7 / 10;
        if (y + high > PAGE_HIGH - MARGIN) {
            plan->pages++;
            y = MARGIN;
        }
        plan->panel[i].page = plan->pages - 1;
        plan->panel[i].top = y;
        y += high;
        if (y > PAGE_HIGH - MARGIN) {
            plan->pages = NO_PAGES;
            return;
        }
    }
    place_table(board, plan, y);
}

/* The plan for letters and lanes of a given height, with or without clocks above the lines. */
static void plan_for(const struct board *board, struct plan *plan, long text, long lane, int clock)
{
    size_t i;

    plan->text = text;
    plan->lane = lane;
    plan->clock = clock;
    plan->count = 0;
    add_days(plan, board->day->count);
    for (i = 0; i < plan->days; i++) {
        if (!all_ticks(&plan->panel[i])) {
            find_close_ups(board, plan, &plan->panel[i]);
        }
    }
    for (i = 0; i < plan->count; i++) {
        plan->panel[i].strip = strip_high(board, plan, &plan->panel[i]);
        plan->panel[i].points = points_high(board, plan, &plan->panel[i]);
    }
    plan->brief = any_short(board, plan);
    flow(board, plan);
}

/* Takes the plan that was tried where it has no more panels and no more pages. */
static int take_plan(struct plan *plan, const struct plan *tried)
{
    if (tried->pages > plan->pages || tried->count > plan->count) {
        return 0;
    }
    *plan = *tried;
    return 1;
}

/*
 * The plan with the fewest pages; on these with clocks above the lines, if there is room, then
 * with the largest letters, and then with the highest lanes.
 */
void make_plan(const struct board *board, struct plan *plan)
{
    struct plan tried;
    size_t pages;
    long text;

    plan_for(board, plan, TEXT_LEAST, TEXT_LEAST, 0);
    plan_for(board, &tried, TEXT_LEAST, TEXT_LEAST, has_clock(board));
    take_plan(plan, &tried);
    for (text = TEXT_MOST; text > TEXT_LEAST; text -= 10) {
        plan_for(board, &tried, text, text * 3 / 2, plan->clock);
        if (take_plan(plan, &tried)) {
            break;
        }
    }
    pages = plan->pages;
    do {
        plan->lane += 10;
        flow(board, plan);
    } while (plan->pages == pages && plan->lane <= LANE_MOST);
    plan->lane -= 10;
    flow(board, plan);
}
