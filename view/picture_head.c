/* The title and the legend; between them stand the words on roles that are open together. */
#include "picture.h"

#include <stdio.h>

enum {
    TITLE = 520,
    SMALL = 260,
    LINE_SMALL = 430,
    TEXT_BYTES = 80
};

/* Words that follow one another in lines. Dry ones are only measured. */
struct flow {
    long x;
    long y;
    long line;
    int wet;
};

/* Makes room for so much, on the next line where this one has too little. */
static void make_room(struct flow *flow, long wide)
{
    if (flow->x > MARGIN && flow->x + wide > RIGHT) {
        flow->x = MARGIN;
        flow->y += flow->line;
    }
}

/* Begins a line of its own. */
static void new_line(struct flow *flow, long line)
{
    flow->x = MARGIN;
    flow->y += line;
    flow->line = line;
}

/* The room that an entry of the legend takes. */
static long entry_wide(const char *text)
{
    return BESIDE + text_wide(text, SMALL);
}

/*
 * Puts a text of the legend that takes at least so much room, with its sample before it; where
 * the sample is comes back.
 */
static long put_entry(struct flow *flow, const char *text, long least)
{
    long at, wide = entry_wide(text);

    wide = wide < least ? least : wide;
    make_room(flow, wide);
    at = flow->x;
    if (flow->wet) {
        write_text(at + BESIDE, flow->y, SMALL, "", text);
    }
    flow->x += wide + 350;
    return at;
}

/* What the legend says of a lane. */
static void lane_text(char *text, size_t size, const struct board *board, size_t which)
{
    const struct lane *lane = &board->lane[which];

    snprintf(text, size, "%s (role %u)%s", lane->name, lane->role,
             board->ever >> lane->role & 1 ? "" : ", never open");
}

/* Puts the names with the lines that stand for them, in columns. */
static void put_names(struct flow *flow, const struct board *board)
{
    char text[NAME_BYTES + TEXT_BYTES];
    long at, least = 0;
    size_t i;

    for (i = 0; i < board->count && board->named; i++) {
        lane_text(text, sizeof text, board, i);
        least = entry_wide(text) > least ? entry_wide(text) : least;
    }
    for (i = 0; i < board->count && board->named; i++) {
        lane_text(text, sizeof text, board, i);
        at = put_entry(flow, text, least);
        if (flow->wet) {
            write_sample(i, at, flow->y - SMALL * 3 / 10, SAMPLE);
        }
    }
}

/* Paints a step up and down. */
static void paint_step(long x, long y)
{
    printf("<path fill=\"#ddd\" d=\"M%ld %ldv-220h400v220\"/>\n", x + 250, y);
    printf("<path fill=\"none\" stroke=\"#000\" stroke-width=\"35\""
           " d=\"M%ld %ldh250v-220h400v220h250\"/>\n",
           x, y);
}

/* Paints the number of a change and the line under it. */
static void paint_number(long x, long y)
{
    x += SAMPLE * 3 / 4;
    write_text(x, y - 110, 190, MIDDLE, "123");
    printf("<path stroke=\"#777\" stroke-width=\"15\" d=\"M%ld %ldv130\"/>\n", x, y - 80);
}

/* Paints the bracket over what is drawn large. */
static void paint_bracket(long x, long y)
{
    printf("<path fill=\"none\" stroke=\"#000\" stroke-width=\"20\""
           " d=\"M%ld %ldv-120h300m300 0h280v120\"/>\n",
           x, y);
    write_text(x + 440, y - 20, 240, MIDDLE BOLD, "1");
}

/* Puts a sign and what it means. */
static void put_sign(struct flow *flow, const char *text, void (*paint)(long x, long y))
{
    long at = put_entry(flow, text, 0);

    if (flow->wet) {
        paint(at, flow->y);
    }
}

/* Puts the signs that the picture has, apart from the hatching. */
static void put_signs(struct flow *flow, const struct plan *plan)
{
    put_sign(flow, "up: open, down: closed", paint_step);
    put_sign(flow, "minute at which a line changes", paint_number);
    if (plan->brief) {
        put_sign(flow, "open together, too short to be hatched", write_short_sample);
    }
    if (plan->count > plan->days) {
        put_sign(flow, "drawn again, larger, as the close-up of that number", paint_bracket);
    }
}

/* The title, with the names where there are two and the line has room for them. */
static void title_text(char *text, size_t size, const struct board *board)
{
    char minutes[TEXT_BYTES];

    snprintf(minutes, sizeof minutes,
             board->day->count == 1 ? "open: minute %lu" : "open: minutes 0 to %lu",
             (unsigned long)board->day->count - 1);
    if (board->named && board->count == 2) {
        snprintf(text, size, "When %s and %s are %s", board->lane[0].name, board->lane[1].name,
                 minutes);
        if (bold_wide(text, TITLE) <= RIGHT - MARGIN) {
            return;
        }
    }
    snprintf(text, size, "When %s %s",
             board->named && board->count == 1 ? "the role is" : "the roles are", minutes);
}

/* Writes the head of the first page, or only measures it; its height comes back. */
long write_head(const struct board *board, const struct plan *plan, int wet)
{
    struct flow flow = {MARGIN, MARGIN + TITLE, 0, 0};
    char text[2 * NAME_BYTES + TEXT_BYTES];

    flow.wet = wet;
    title_text(text, sizeof text, board);
    if (wet) {
        write_text(MARGIN, flow.y, TITLE, BOLD, text);
    }
    flow.y = write_words(board, flow.y + 60, wet);
    new_line(&flow, LINE_SMALL);
    put_names(&flow, board);
    put_signs(&flow, plan);
    return flow.y + SMALL - MARGIN;
}
