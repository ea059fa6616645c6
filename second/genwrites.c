/* Write cases: good tables, tables at and outside every limit, wrong lengths and counts. */
#include "gen.h"

#include <string.h>

static struct book book;       /* the book in the making */
static struct write_case made; /* the case in the making */

/* What the buffer holds beforehand: anything, at times a byte that a sheet has too. */
static uint8_t any_fill(struct dice *dice)
{
    static const uint8_t fills[] = {0x00, 0xFF, 0x0A, '0', 'F', ' '};

    return (uint8_t)(chance(dice, 30) ? fills[below(dice, sizeof fills)] : dice_number(dice));
}

/* The tables of a book and a buffer of its exact length. */
void write_case_of(struct dice *dice, struct write_case *to, const struct book *book)
{
    table_case_of(&to->tables, book);
    to->buffer_length = SHEET_MOST;
    to->fill = any_fill(dice);
}

/* Puts a case of the book in the making, with junk in what is unused. */
static void put_with_junk(struct dice *dice, struct text *out)
{
    write_case_of(dice, &made, &book);
    junk_unused(dice, &made.tables);
    put_write_case(out, &made);
}

/* Good tables of any shape. */
void write_good(struct dice *dice, uint64_t seed, struct text *out)
{
    (void)seed;
    good_book(dice, &book);
    put_with_junk(dice, out);
}

/* Good tables near every limit. */
void write_dense(struct dice *dice, uint64_t seed, struct text *out)
{
    (void)seed;
    dense_book(dice, &book);
    put_with_junk(dice, out);
}

/* Good tables of every size, from no rows to the longest sheet. */
void write_rows(struct dice *dice, uint64_t seed, struct text *out)
{
    sized_book(dice, &book, (uint32_t)(seed % row_sizes()));
    put_with_junk(dice, out);
}

/* Good tables with a field at its least or its greatest value, in a first, middle or last row. */
void write_field(struct dice *dice, uint64_t seed, struct text *out)
{
    inside_book(dice, &book, (uint32_t)(seed % inside_edges()));
    put_with_junk(dice, out);
}

/* Tables with one field outside its limits, in a first, middle or last row. */
void write_wrong(struct dice *dice, uint64_t seed, struct text *out)
{
    uint32_t which = (uint32_t)(seed % outside_edges());

    book_for_edges(dice, &book);
    set_outside(dice, &book, which, (enum where)(seed / outside_edges() % 3));
    put_with_junk(dice, out);
}

/* A cycle of 1 to 128 events, or its neighbour without a loop. */
void write_loop(struct dice *dice, uint64_t seed, struct text *out)
{
    loop_book(dice, &book, (uint32_t)(seed % 128) + 1, (uint32_t)(seed / 128 % 4));
    put_with_junk(dice, out);
}

/* Random triggers that may have loops, many or none. */
void write_tangle(struct dice *dice, uint64_t seed, struct text *out)
{
    (void)seed;
    shaped_book(dice, &book, TANGLE);
    put_with_junk(dice, out);
}

/* Puts events at and over the limit into the unused places of used triggers. */
static void wrong_places(struct dice *dice, struct table_case *to)
{
    uint8_t wrong[3];
    uint32_t i;

    wrong[0] = (uint8_t)(2 * to->role_count);
    wrong[1] = 128;
    wrong[2] = 255;
    for (i = 0; i < to->trigger_count; i++) {
        set_unused_places(&to->trigger[i], wrong[below(dice, 3)]);
    }
}

/* A row with a field outside its limits that is the first one not used. */
static void uncounted_row(struct dice *dice, uint32_t which)
{
    const struct edge *edge = set_outside(dice, &book, which, LAST_ROW);

    write_case_of(dice, &made, &book);
    if (of_periodic(edge)) {
        made.tables.periodic_count--;
    } else {
        made.tables.trigger_count--;
    }
}

/* Wrong rows and wrong places that are not used: none of these is refused. */
void write_unused(struct dice *dice, uint64_t seed, struct text *out)
{
    uint32_t way = (uint32_t)(seed % 4);

    book_for_edges(dice, &book);
    if (way == 0) {
        uncounted_row(dice, (uint32_t)(seed / 4 % outside_edges()));
        put_write_case(out, &made);
        return;
    }
    write_case_of(dice, &made, &book);
    if (way == 1) {
        wrong_places(dice, &made.tables);
    } else if (way == 2) {
        give_loop(dice, &made.tables);
    }
    while (way == 3 && (made.tables.periodic_given < PERIODIC_MOST
                        || made.tables.trigger_given < TRIGGERS_MOST)) {
        junk_unused(dice, &made.tables);
    }
    put_write_case(out, &made);
}

/* Lengths of the periodic table, the trigger table and the buffer, of which some are wrong. */
static const uint16_t lengths[][3] = {
    {127, 256, 16384}, {129, 256, 16384}, {0, 256, 16384}, {256, 256, 16384}, {1, 256, 16384},
    {128, 255, 16384}, {128, 257, 16384}, {128, 0, 16384}, {128, 512, 16384}, {128, 128, 16384},
    {128, 256, 16383}, {128, 256, 16385}, {128, 256, 0}, {128, 256, 32768}, {128, 256, 1},
    {128, 256, 12692}, {128, 256, 12691}, {128, 256, 8192}, {128, 256, 128}, {128, 256, 20000},
    {256, 128, 16384}, {127, 257, 16384}, {129, 255, 16384}, {127, 255, 16383}, {0, 0, 0},
    {256, 512, 32768}, {128, 0, 0}, {0, 256, 0}, {129, 257, 16385}
};

enum { LENGTHS = sizeof lengths / sizeof lengths[0] };

/* Gives a case one of the lengths; rows past a table's length go. */
static void set_lengths(struct write_case *to, uint32_t which)
{
    to->tables.periodic_length = lengths[which % LENGTHS][0];
    to->tables.trigger_length = lengths[which % LENGTHS][1];
    to->buffer_length = lengths[which % LENGTHS][2];
    trim_rows(&to->tables);
}

/* Good tables, or a buffer, of a wrong length. */
void write_length(struct dice *dice, uint64_t seed, struct text *out)
{
    accepted_book(dice, &book);
    write_case_of(dice, &made, &book);
    junk_unused(dice, &made.tables);
    set_lengths(&made, (uint32_t)(seed % LENGTHS));
    put_write_case(out, &made);
}

/*
 * Counts just over and far over their limits, also such whose low bits look right, and counts of
 * rows that are not given. A role count has at most 8 bits here and the others 16.
 */
static const struct edge counts[] = {
    {PERIODIC_ROWS, 0, 129}, {PERIODIC_ROWS, 0, 130}, {PERIODIC_ROWS, 0, 255},
    {PERIODIC_ROWS, 0, 256}, {PERIODIC_ROWS, 0, 257}, {PERIODIC_ROWS, 0, 384},
    {PERIODIC_ROWS, 0, 32768}, {PERIODIC_ROWS, 0, 65280}, {PERIODIC_ROWS, 0, 65535},
    {TRIGGER_ROWS, 0, 257}, {TRIGGER_ROWS, 0, 258}, {TRIGGER_ROWS, 0, 511},
    {TRIGGER_ROWS, 0, 512}, {TRIGGER_ROWS, 0, 513}, {TRIGGER_ROWS, 0, 32768},
    {TRIGGER_ROWS, 0, 65280}, {TRIGGER_ROWS, 0, 65535},
    {ROLES, 0, 0}, {ROLES, 0, 65}, {ROLES, 0, 66}, {ROLES, 0, 127}, {ROLES, 0, 128},
    {ROLES, 0, 129}, {ROLES, 0, 192}, {ROLES, 0, 254}, {ROLES, 0, 255},
    {PERIODIC_ROWS, 0, 128}, {TRIGGER_ROWS, 0, 256}, {PERIODIC_ROWS, 1, 1}, {TRIGGER_ROWS, 1, 1}
};

enum { COUNTS = sizeof counts / sizeof counts[0] };

/* Gives tables another count of roles or of rows, the rows staying as they are. */
static void set_count(struct table_case *to, uint32_t which)
{
    const struct edge *edge = &counts[which % COUNTS];

    if (edge->spot == ROLES) {
        to->role_count = edge->value;
    } else if (edge->spot == PERIODIC_ROWS) {
        to->periodic_count = edge->value + (edge->from ? to->periodic_given : 0);
    } else {
        to->trigger_count = edge->value + (edge->from ? to->trigger_given : 0);
    }
}

/* Tables with a wrong count. */
void write_count(struct dice *dice, uint64_t seed, struct text *out)
{
    accepted_book(dice, &book);
    write_case_of(dice, &made, &book);
    if (chance(dice, 30)) {
        junk_unused(dice, &made.tables);
    }
    set_count(&made.tables, (uint32_t)(seed % COUNTS));
    put_write_case(out, &made);
}

/* Several faults at once, so that the first test that fails decides. */
void write_spoils(struct dice *dice, uint64_t seed, struct text *out)
{
    uint32_t times = below(dice, 3);

    (void)seed;
    book_for_edges(dice, &book);
    for (; times > 0; times--) {
        set_outside(dice, &book, below(dice, outside_edges()), (enum where)below(dice, 3));
    }
    write_case_of(dice, &made, &book);
    junk_unused(dice, &made.tables);
    for (times = between(dice, 0, 2); times > 0; times--) {
        spoil_loop(dice, &made.tables);
    }
    if (chance(dice, 20)) {
        spoil_row(dice, &made.tables, below(dice, 6));
    }
    for (times = chance(dice, 30) ? between(dice, 1, 2) : 0; times > 0; times--) {
        set_count(&made.tables, below(dice, COUNTS));
    }
    if (chance(dice, 20)) {
        set_lengths(&made, below(dice, LENGTHS));
    }
    put_write_case(out, &made);
}
