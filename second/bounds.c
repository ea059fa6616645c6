/* Books at the bounds of what the writer accepts, and books just outside them. */
#include "gen.h"

#include <string.h>

/* How many events and conditions the triggers of a book have. */
enum body { ANY_BODY, LEAST_BODY, MOST_BODY, EACH_BODY };

/* Numbers of rows, a role count (0 for any) and the bodies of the triggers. */
struct size {
    uint32_t periodic;
    uint32_t triggers;
    uint32_t roles;
    enum body body;
};

/* The longest sheet has 128 periodic rows and 256 triggers of four events and four conditions. */
static const struct size sizes[] = {
    {128, 256, 64, MOST_BODY}, {128, 256, 1, MOST_BODY}, {128, 256, 0, LEAST_BODY},
    {128, 256, 0, ANY_BODY}, {127, 255, 0, ANY_BODY}, {128, 255, 0, MOST_BODY},
    {127, 256, 0, MOST_BODY}, {128, 0, 0, ANY_BODY}, {127, 0, 0, ANY_BODY}, {0, 256, 0, ANY_BODY},
    {0, 255, 0, ANY_BODY}, {128, 1, 0, ANY_BODY}, {1, 256, 0, ANY_BODY},
    {0, 0, 0, ANY_BODY}, {0, 0, 1, ANY_BODY}, {0, 0, 64, ANY_BODY}, {1, 0, 0, ANY_BODY},
    {0, 1, 0, ANY_BODY}, {0, 1, 0, LEAST_BODY}, {0, 1, 0, MOST_BODY}, {1, 1, 0, ANY_BODY},
    {0, 20, 0, EACH_BODY}, {3, 20, 64, EACH_BODY}, {2, 40, 1, EACH_BODY},
    {5, 5, 1, ANY_BODY}, {5, 5, 64, ANY_BODY}, {9, 9, 63, MOST_BODY}, {9, 9, 2, LEAST_BODY}
};

/* Each field of a row at its least and its greatest value: nothing here is refused. */
static const struct edge inside[] = {
    {ROLES, 0, 1}, {ROLES, 0, 64}, {BEGIN, 0, 0}, {BEGIN, 0, 16777215},
    {END, 1, 0}, {END, 0, 16777215}, {END, 0, NO_END}, {PERIOD, 0, 1}, {PERIOD, 0, 10080},
    {FIRST, 0, 0}, {FIRST, 1, UINT32_MAX}, {RUN, 0, 1}, {RUN, 1, 0},
    {ROW_EVENT, 0, 0}, {ROW_EVENT, 1, UINT32_MAX}, {ROW_PRIORITY, 0, 0}, {ROW_PRIORITY, 0, 15},
    {BODY_COUNT, 0, 1}, {BODY_COUNT, 0, 2}, {BODY_COUNT, 0, 3}, {BODY_COUNT, 0, 4},
    {CONDITION_COUNT, 0, 0}, {CONDITION_COUNT, 0, 1}, {CONDITION_COUNT, 0, 2},
    {CONDITION_COUNT, 0, 3}, {CONDITION_COUNT, 0, 4},
    {BODY, 0, 0}, {BODY, 1, UINT32_MAX}, {CONDITION, 0, 0}, {CONDITION, 1, UINT32_MAX},
    {HEAD, 0, 0}, {HEAD, 1, UINT32_MAX}, {HEAD_PRIORITY, 0, 0}, {HEAD_PRIORITY, 0, 15},
    {DELAY, 0, 0}, {DELAY, 0, 60}
};

/* Each field of a row just outside its limits and far outside: all of these are FIELD. */
static const struct edge outside[] = {
    {BEGIN, 0, 16777216}, {BEGIN, 0, UINT32_C(0x80000000)}, {BEGIN, 0, NO_END},
    {END, 1, UINT32_MAX}, {END, 0, 0}, {END, 0, 16777216}, {END, 0, NO_END - 1},
    {PERIOD, 0, 0}, {PERIOD, 0, 10081}, {PERIOD, 0, 65535},
    {FIRST, 1, 0}, {FIRST, 1, 1}, {FIRST, 0, 65535}, {RUN, 0, 0}, {RUN, 1, 1}, {RUN, 0, 65535},
    {ROW_EVENT, 1, 0}, {ROW_EVENT, 1, 1}, {ROW_EVENT, 0, 128}, {ROW_EVENT, 0, 255},
    {ROW_PRIORITY, 0, 16}, {ROW_PRIORITY, 0, 128}, {ROW_PRIORITY, 0, 255},
    {BODY_COUNT, 0, 0}, {BODY_COUNT, 0, 5}, {BODY_COUNT, 0, 128}, {BODY_COUNT, 0, 255},
    {CONDITION_COUNT, 0, 5}, {CONDITION_COUNT, 0, 128}, {CONDITION_COUNT, 0, 255},
    {BODY, 1, 0}, {BODY, 1, 1}, {BODY, 0, 128}, {BODY, 0, 255},
    {CONDITION, 1, 0}, {CONDITION, 1, 1}, {CONDITION, 0, 128}, {CONDITION, 0, 255},
    {HEAD, 1, 0}, {HEAD, 1, 1}, {HEAD, 0, 128}, {HEAD, 0, 255},
    {HEAD_PRIORITY, 0, 16}, {HEAD_PRIORITY, 0, 128}, {HEAD_PRIORITY, 0, 255},
    {DELAY, 0, 61}, {DELAY, 0, 128}, {DELAY, 0, 255}
};

enum {
    SIZES = sizeof sizes / sizeof sizes[0],
    INSIDE = sizeof inside / sizeof inside[0],
    OUTSIDE = sizeof outside / sizeof outside[0]
};

/* How many sizes of tables there are. */
uint32_t row_sizes(void)
{
    return SIZES;
}

/* How many edges inside the limits there are, each in a first, a middle and a last row. */
uint32_t inside_edges(void)
{
    return 3 * INSIDE;
}

/* How many edges outside the limits there are. */
uint32_t outside_edges(void)
{
    return OUTSIDE;
}

/* Gives a trigger its numbers of events and conditions; EACH goes by the row through them all. */
static void set_body(struct dice *dice, struct trigger *row, enum body body, uint32_t number)
{
    if (body == EACH_BODY) {
        row->event_count = (uint8_t)(1 + number % BODY_MOST);
        row->condition_count = (uint8_t)(number / BODY_MOST % (BODY_MOST + 1));
    } else {
        row->event_count = (uint8_t)(body == LEAST_BODY ? 1 : BODY_MOST);
        row->condition_count = (uint8_t)(body == LEAST_BODY ? 0 : BODY_MOST);
    }
    if (body == ANY_BODY) {
        row->event_count = (uint8_t)between(dice, 1, BODY_MOST);
        row->condition_count = (uint8_t)between(dice, 0, BODY_MOST);
    }
}

/* Gives every trigger of a book another good body, and takes loops away. */
static void set_bodies(struct dice *dice, struct book *book, enum body body)
{
    uint32_t i;
    unsigned k;

    for (i = 0; i < book->trigger_count; i++) {
        set_body(dice, &book->trigger[i], body, i);
        for (k = 0; k < BODY_MOST; k++) {
            book->trigger[i].events[k] = (uint8_t)any_event(dice, book->role_count);
            book->trigger[i].conditions[k] = (uint8_t)any_event(dice, book->role_count);
        }
    }
    make_loop_free(dice, book->trigger, book->trigger_count);
}

/* A good book with one of the sizes. */
void sized_book(struct dice *dice, struct book *book, uint32_t which)
{
    const struct size *size = &sizes[which % SIZES];

    memset(book, 0, sizeof *book);
    book->version = SHEET_VERSION;
    book->role_count = size->roles == 0 ? between(dice, 1, ROLES_MOST) : size->roles;
    add_periodic_rows(dice, book, size->periodic);
    shape_triggers(dice, book, MIXED, size->triggers);
    set_bodies(dice, book, size->body);
    say_counts(book);
    good_tape(dice, book, below(dice, 20));
}

/*
 * A good book of at least three rows of each sort, with bodies of any size: an edge can be set in
 * its first, in a middle and in its last row.
 */
void book_for_edges(struct dice *dice, struct book *book)
{
    good_book(dice, book);
    if (book->periodic_count < 3) {
        add_periodic_rows(dice, book, 3 - book->periodic_count);
    }
    shape_triggers(dice, book, MIXED, 3);
    set_bodies(dice, book, ANY_BODY);
    say_counts(book);
}

/*
 * Sets an edge alone: a begin does not make its end wrong, and a first or a run is at times that
 * of the longest period. The row is a first, middle or last one.
 */
static void set_alone(struct dice *dice, struct book *book, const struct edge *edge, enum where where)
{
    static const struct edge no_end = {END, 0, NO_END}, longest = {PERIOD, 0, PERIOD_MOST};

    if (edge->spot == BEGIN) {
        set_edge(dice, book, &no_end, where);
    } else if ((edge->spot == FIRST || edge->spot == RUN) && chance(dice, 50)) {
        set_edge(dice, book, &longest, where);
    }
    set_edge(dice, book, edge, where);
}

/* Lets every window without an end be one instant long. */
static void shut_windows(struct book *book)
{
    uint32_t i;

    for (i = 0; i < book->periodic_count; i++) {
        if (book->periodic[i].end == NO_END) {
            book->periodic[i].end = book->periodic[i].begin;
        }
    }
}

/* A good book with a field at its least or its greatest value. */
void inside_book(struct dice *dice, struct book *book, uint32_t which)
{
    const struct edge *edge = &inside[which % INSIDE];

    book_for_edges(dice, book);
    set_alone(dice, book, edge, (enum where)(which / INSIDE % 3));
    if (edge->spot == BEGIN && chance(dice, 50)) {
        shut_windows(book);
    }
    make_loop_free(dice, book->trigger, book->trigger_count);
}

/* Brings a field of a good book outside its limits; which edge that was comes back. */
const struct edge *set_outside(struct dice *dice, struct book *book, uint32_t which, enum where where)
{
    const struct edge *edge = &outside[which % OUTSIDE];

    set_alone(dice, book, edge, where);
    return edge;
}

/* A book that is accepted: of any shape, near every limit, of a certain size, or at an edge. */
void accepted_book(struct dice *dice, struct book *book)
{
    uint32_t way = below(dice, 20);

    if (way == 0) {
        dense_book(dice, book);
    } else if (way < 4) {
        sized_book(dice, book, below(dice, row_sizes()));
    } else if (way < 10) {
        inside_book(dice, book, below(dice, inside_edges()));
    } else {
        good_book(dice, book);
    }
}
