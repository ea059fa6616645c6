/* The picture of a day: what its parts share. Lengths are hundredths of a millimetre. */
#ifndef VIEW_PICTURE_H
#define VIEW_PICTURE_H

#include "names.h"

#include <stddef.h>
#include <stdint.h>

enum {
    MINUTES_MOST = 10081, /* instants 0 to 10,080 */
    DAY_MINUTES = 1440,
    MARKS_MOST = DAY_MINUTES + 1,
    CLOSE_MINUTES = 240,
    PANELS_MOST = 256,
    PAGE_WIDE = 29700, /* A4, lying */
    PAGE_HIGH = 21000,
    MARGIN = 900,
    RIGHT = PAGE_WIDE - MARGIN,
    LEFT = 4600, /* where minutes begin; names stand before it */
    WIDE = 24000,
    COLUMN_MOST = 6000,
    TICK_APART = 95,
    SAMPLE = 900,
    BESIDE = SAMPLE + 150 /* where what is said of a sample begins */
};

/* How a text stands, besides its place and size. */
#define MIDDLE " text-anchor=\"middle\""
#define AT_END " text-anchor=\"end\""
#define BOLD " font-weight=\"bold\""
#define PALE " fill=\"#444\""

/* What the day program printed: for each minute the roles that are open after it. */
struct day {
    size_t count;
    uint64_t open[MINUTES_MOST];
};

/* The input that the day was run from: what the foot says of it, and how many roles it has. */
struct source {
    const char *name;
    const char *sum;
    unsigned long lines;
    unsigned roles;
};

/* One stepped line: a role and its name, which is empty where none was given. */
struct lane {
    unsigned role;
    const char *name;
};

/* The table of clashes, which there is where the head does not list them all: its columns. */
struct table {
    size_t rows;    /* 0 where there is no table */
    size_t columns; /* how many rows stand beside one another */
    int by_name;    /* whether roles stand there by their names, or by their numbers */
    long minutes;
    long clock;
    long many;
    long roles; /* 0 where all rows have the same two roles */
};

/* What is drawn. */
struct board {
    const struct day *day;
    int named;
    size_t count;
    struct lane lane[ROLES_MOST];
    uint64_t mask;  /* the roles of the lanes */
    uint64_t apart; /* those of them that must be apart: no two may be open together */
    uint64_t ever;  /* the roles that are ever open */
    struct table table;
};

/* Some minutes on one axis: a stretch of the day, or a close-up of a part of it. */
struct panel {
    size_t from;
    size_t to;   /* the minute after the last */
    size_t span; /* how many minutes the width stands for */
    long wide;
    size_t number; /* of a close-up, from 1; else 0 */
    long strip;    /* the height of the numbers above the lines */
    long points;   /* the height of the triangles over clashes that are too short to be hatched */
    size_t page;
    long top;
};

/* Where everything stands. The panels of the day come first, then the close-ups. */
struct plan {
    long text; /* the height of letters */
    long lane; /* the height of one line's lane */
    int clock; /* whether hours and minutes stand beside the numbers of changes */
    int brief; /* whether some clash is too short to be hatched */
    size_t days;
    size_t count;
    size_t pages;
    size_t table_page; /* where the table begins */
    long table_top;
    struct panel panel[PANELS_MOST];
};

/* The minutes of a panel at which a line changes, and where each number is printed. */
struct marks {
    size_t count;
    size_t printed; /* how many of them are not crowded */
    int upright;
    size_t minute[MARKS_MOST];
    long at[MARKS_MOST];
    char crowded[MARKS_MOST]; /* too many beside it: its number is not printed here */
};

/* picture_apart.c */
int take_apart(const char *list, const struct names *names, uint64_t *apart);

/* picture_source.c */
int read_source(struct source *source, char **words);

/* picture_day.c */
int read_day(struct day *day);
void choose_lanes(struct board *board, const struct day *day, const struct names *names,
                  uint64_t apart);
size_t roles_in(uint64_t set);
uint64_t roles_before(const struct board *board, size_t minute);
int changes(const struct board *board, size_t minute);
uint64_t both_open(const struct board *board, size_t minute);
size_t both_until(const struct board *board, size_t minute, size_t to);

/* picture_marks.c */
long across(const struct panel *panel, size_t minute);
long marks_high(const struct plan *plan, const struct panel *panel, const struct marks *marks);
void place_marks(const struct board *board, const struct plan *plan, const struct panel *panel,
                 struct marks *marks);

/* picture_plan.c */
int has_clock(const struct board *board);
int close_up_of(const struct panel *panel, const struct panel *close);
long bracket_high(const struct plan *plan, const struct panel *panel);
void make_plan(const struct board *board, struct plan *plan);

/* picture_text.c */
long text_wide(const char *text, long size);
long bold_wide(const char *text, long size);
void write_text(long x, long y, long size, const char *how, const char *text);
void clock_text(char *text, size_t size, size_t minute);
void stretch_text(char *text, size_t size, size_t from, size_t to);

/* picture_head.c */
long write_head(const struct board *board, const struct plan *plan, int wet);

/* picture_words.c */
int words_cut(const struct board *board);
long write_words(const struct board *board, long y, int wet);

/* picture_foot.c */
void write_foot(const struct source *source, const struct plan *plan, size_t page);

/* picture_table.c */
void make_table(struct board *board);
void place_table(const struct board *board, struct plan *plan, long y);
void write_table(const struct board *board, const struct plan *plan);

/* picture_lines.c */
void write_shade(const struct board *board, const struct plan *plan, const struct panel *panel,
                 size_t which, long top);
void write_line(const struct board *board, const struct plan *plan, const struct panel *panel,
                size_t which, long top);
void write_sample(size_t which, long x, long y, long wide);

/* picture_both.c */
int any_short(const struct board *board, const struct plan *plan);
long points_high(const struct board *board, const struct plan *plan, const struct panel *panel);
void write_both(const struct board *board, const struct plan *plan, const struct panel *panel,
                long top, long axis);
void write_hatch_sample(long x, long y);
void write_short_sample(long x, long y);

/* picture_names.c */
void write_lane_names(const struct board *board, const struct plan *plan, long top);

/* picture_panel.c */
void write_panel(const struct board *board, const struct plan *plan, const struct panel *panel);

#endif
