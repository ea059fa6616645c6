/*
 * The table of all stretches in which roles clash, after the panels. There is one where the words
 * in the head leave some out. It goes on from page to page, in as many columns as have room.
 */
#include "picture.h"

#include <stdio.h>
#include <string.h>

enum {
    ROW = 230,
    ROW_HIGH = 310,
    TITLE = 320,
    ABOVE = 1500, /* how far the first row stands below the top: the title and heads are between */
    GAP = 300,
    BETWEEN = 700,
    ROWS_LEAST = 6,
    NAMES_MOST = 8000,
    BOTTOM = PAGE_HIGH - MARGIN,
    TEXT_BYTES = 80,
    ROLES_BYTES = ROLES_MOST * (NAME_BYTES + 2)
};

/* One row: from one minute to another, and the roles that are open in all of them. */
struct row {
    size_t from;
    size_t to; /* the minute after the last */
    uint64_t roles;
};

/* Takes the next row from a minute on; 0 where there is none. */
static int next_row(const struct board *board, size_t at, struct row *row)
{
    while (at < board->day->count && both_open(board, at) == 0) {
        at++;
    }
    row->from = at;
    if (at == board->day->count) {
        return 0;
    }
    row->roles = both_open(board, at);
    while (at < board->day->count && both_open(board, at) == row->roles) {
        at++;
    }
    row->to = at;
    return 1;
}

/* A minute as hours and minutes, with its day where the row says no day before it. */
static void add_clock(char *text, size_t minute, int day)
{
    char clock[TEXT_BYTES];

    if (day) {
        sprintf(text + strlen(text), "day %lu, ", (unsigned long)(minute / DAY_MINUTES + 1));
    }
    clock_text(clock, sizeof clock, minute);
    strcat(text, clock);
}

/* The hours and minutes of a row. */
static void row_clock(char *text, const struct board *board, const struct row *row)
{
    size_t last = row->to - 1;
    int days = board->day->count > DAY_MINUTES;

    text[0] = 0;
    add_clock(text, row->from, days);
    if (last > row->from) {
        strcat(text, " to ");
        add_clock(text, last, days && last / DAY_MINUTES != row->from / DAY_MINUTES);
    }
}

/* The names of a row's roles. */
static void row_names(char *text, const struct board *board, uint64_t roles)
{
    size_t i;

    text[0] = 0;
    for (i = 0; i < board->count; i++) {
        if (roles >> board->lane[i].role & 1) {
            strcat(text, text[0] != 0 ? ", " : "");
            strcat(text, board->lane[i].name);
        }
    }
}

/* The numbers of a row's roles, as '0, 3 to 7'. */
static void row_numbers(char *text, uint64_t roles)
{
    unsigned role, end;

    text[0] = 0;
    for (role = 0; role < ROLES_MOST; role = end + 1) {
        for (end = role; end < ROLES_MOST && roles >> end & 1; end++) {
        }
        if (end > role) {
            strcat(text, text[0] != 0 ? ", " : "");
            sprintf(text + strlen(text),
                    end > role + 2 ? "%u to %u" : end > role + 1 ? "%u, %u" : "%u", role, end - 1);
        }
    }
}

/* A row's roles, by their names or by their numbers. */
static void row_roles(char *text, const struct board *board, uint64_t roles)
{
    if (board->table.by_name) {
        row_names(text, board, roles);
    } else {
        row_numbers(text, roles);
    }
}

/* Makes a column as wide as a text where it is not. */
static void widen(long *wide, const char *text)
{
    *wide = text_wide(text, ROW) > *wide ? text_wide(text, ROW) : *wide;
}

/* Measures the roles of all rows, where they are not the same two in each. */
static void measure_roles(struct board *board)
{
    char text[ROLES_BYTES];
    struct row row = {0, 0, 0};

    if (roles_in(board->apart) == 2) {
        return;
    }
    widen(&board->table.roles, "roles");
    while (next_row(board, row.to, &row)) {
        row_roles(text, board, row.roles);
        widen(&board->table.roles, text);
    }
}

/* Counts the rows and measures what they say. */
static void measure_rows(struct board *board)
{
    struct table *table = &board->table;
    struct row row = {0, 0, 0};
    char text[TEXT_BYTES];

    widen(&table->minutes, "minutes");
    widen(&table->clock, "h:mm");
    widen(&table->many, "how many");
    while (next_row(board, row.to, &row)) {
        stretch_text(text, sizeof text, row.from, row.to);
        widen(&table->minutes, text);
        row_clock(text, board, &row);
        widen(&table->clock, text);
        table->rows++;
    }
}

/* How far a column is from the one before it. */
static long column_wide(const struct table *table)
{
    return table->minutes + table->clock + table->many + 2 * GAP + BETWEEN
           + (table->roles > 0 ? GAP + table->roles : 0);
}

/* Makes the table, of no rows where the words in the head leave nothing out. */
void make_table(struct board *board)
{
    struct table *table = &board->table;

    memset(table, 0, sizeof *table);
    if (!words_cut(board)) {
        return;
    }
    measure_rows(board);
    table->by_name = 1;
    measure_roles(board);
    if (table->roles > NAMES_MOST) {
        table->by_name = 0;
        table->roles = 0;
        measure_roles(board);
    }
    table->columns = (size_t)((RIGHT - MARGIN + BETWEEN) / column_wide(table));
    table->columns = table->columns == 0 ? 1 : table->columns;
}

/* How many rows stand one below another, on a page where the table begins at "top". */
static size_t lines_from(long top)
{
    return top + ABOVE > BOTTOM ? 0 : (size_t)((BOTTOM - top - ABOVE) / ROW_HIGH);
}

/* Finds the table's place below what ends at "y" on the last page, and adds the pages it takes. */
void place_table(const struct board *board, struct plan *plan, long y)
{
    const struct table *table = &board->table;
    size_t first, full = lines_from(MARGIN) * table->columns;

    if (table->rows == 0) {
        return;
    }
    if (lines_from(y) < ROWS_LEAST) {
        plan->pages++;
        y = MARGIN;
    }
    plan->table_page = plan->pages - 1;
    plan->table_top = y;
    first = lines_from(y) * table->columns;
    if (table->rows > first) {
        plan->pages += (table->rows - first + full - 1) / full;
    }
}

/* The title: whose minutes these are. */
static void title_text(char *text, size_t size, const struct board *board, int first)
{
    const struct lane *one = NULL, *two = NULL;
    size_t i;

    for (i = 0; i < board->count; i++) {
        if (board->apart >> board->lane[i].role & 1) {
            one = two;
            two = &board->lane[i];
        }
    }
    if (roles_in(board->apart) > 2) {
        snprintf(text, size, "All minutes in which two or more%s are open, and which%s",
                 board->apart == board->mask ? "" : " of those that must be apart",
                 first ? "" : " (continued)");
        return;
    }
    snprintf(text, size, "All minutes in which %s and %s are both open%s", one->name, two->name,
             first ? "" : " (continued)");
    if (bold_wide(text, TITLE) > RIGHT - MARGIN) {
        snprintf(text, size, "All minutes in which roles %u and %u are both open%s", one->role,
                 two->role, first ? "" : " (continued)");
    }
}

/* Writes the fields of a row, or the heads of a column. */
static void write_fields(const struct table *table, long x, long y, const char *how,
                         const char *const field[4])
{
    char end[TEXT_BYTES];

    snprintf(end, sizeof end, "%s%s", AT_END, how);
    write_text(x, y, ROW, how, field[0]);
    x += table->minutes + GAP;
    write_text(x, y, ROW, how, field[1]);
    x += table->clock + GAP + table->many;
    write_text(x, y, ROW, end, field[2]);
    if (table->roles > 0) {
        write_text(x + GAP, y, ROW, how, field[3]);
    }
}

/* Writes the heads of a column. */
static void write_heads(const struct table *table, long x, long y)
{
    static const char *const heads[4] = {"minutes", "h:mm", "how many", "roles"};

    write_fields(table, x, y, PALE, heads);
    printf("<path stroke=\"#000\" stroke-width=\"15\" d=\"M%ld %ldh%ld\"/>\n", x, y + 90,
           column_wide(table) - BETWEEN);
}

/* Writes a row. */
static void write_row(const struct board *board, const struct row *row, long x, long y)
{
    char minutes[TEXT_BYTES], clock[TEXT_BYTES], many[TEXT_BYTES], roles[ROLES_BYTES];
    const char *field[4];

    stretch_text(minutes, sizeof minutes, row->from, row->to);
    row_clock(clock, board, row);
    snprintf(many, sizeof many, "%lu", (unsigned long)(row->to - row->from));
    row_roles(roles, board, row->roles);
    field[0] = minutes;
    field[1] = clock;
    field[2] = many;
    field[3] = roles;
    write_fields(&board->table, x, y, "", field);
}

/*
 * Writes one page of the table: the rows after the given one, so many below one another, column
 * by column. The last row that was written is left in it; how many were comes back.
 */
static size_t write_page(const struct board *board, struct row *row, long top, size_t lines)
{
    long x, y = top + ABOVE;
    size_t i;

    for (i = 0; i < lines * board->table.columns && next_row(board, row->to, row); i++) {
        x = MARGIN + (long)(i / lines) * column_wide(&board->table);
        if (i % lines == 0) {
            write_heads(&board->table, x, y - ROW_HIGH - 60);
        }
        write_row(board, row, x, y + (long)(i % lines) * ROW_HIGH);
    }
    return i;
}

/* Writes the table, if there is one. The columns of its last page are of one height. */
void write_table(const struct board *board, const struct plan *plan)
{
    size_t left = board->table.rows, columns = board->table.columns, page, lines;
    char text[2 * NAME_BYTES + TEXT_BYTES];
    struct row row = {0, 0, 0};
    long top = plan->table_top;

    for (page = plan->table_page; left > 0; page++) {
        lines = lines_from(top);
        lines = lines * columns > left ? (left + columns - 1) / columns : lines;
        title_text(text, sizeof text, board, page == plan->table_page);
        printf("<g transform=\"translate(0 %lu)\">\n", (unsigned long)page * PAGE_HIGH);
        write_text(MARGIN, top + TITLE * 3 / 2, TITLE, BOLD, text);
        left -= write_page(board, &row, top, lines);
        printf("</g>\n");
        top = MARGIN;
    }
}
