/* The parts of the generator. */
#ifndef GEN_H
#define GEN_H

#include "form.h"

enum {
    BOOK_PERIODIC = 160,
    BOOK_TRIGGERS = 300
};

/* A small generator of numbers that is the same everywhere. */
struct dice {
    uint64_t state;
};

/* A sheet and a tape in the making; any field may be wrong on purpose. */
struct book {
    uint8_t version;
    uint32_t role_count;
    uint32_t periodic_count;
    uint32_t trigger_count;
    uint32_t end_periodic; /* what the end frame says */
    uint32_t end_trigger;
    struct periodic periodic[BOOK_PERIODIC];
    struct trigger trigger[BOOK_TRIGGERS];
    struct tape tape;
};

/* The shapes that a trigger table can be given. */
enum shape { MIXED, ORDERED, CHAIN, RING, LADDER, TANGLE };

/* The fields that an edge can set. */
enum spot {
    VERSION, ROLES, BEGIN, END, PERIOD, FIRST, RUN, ROW_EVENT, ROW_PRIORITY,
    BODY_COUNT, CONDITION_COUNT, BODY, CONDITION, HEAD, HEAD_PRIORITY, DELAY,
    PERIODIC_ROWS, TRIGGER_ROWS, END_PERIODIC, END_TRIGGER,
    INSTANT, ASKED_EVENT, ASKED_PRIORITY, ASKED_DELAY, LAST_INSTANT
};

/* An edge: a field and its value, counted from the field's own base when "from" is 1. */
struct edge {
    enum spot spot;
    int from;
    uint32_t value;
};

/* The row in which an edge is set. */
enum where { FIRST_ROW, MIDDLE_ROW, LAST_ROW, ANY_ROW };

/* The sorts of lines, those of a sheet and then those of a tape. */
enum sort { HEADER_LINE, PERIODIC_LINE, TRIGGER_LINE, END_LINE, REQUEST_LINE, LAST_LINE };

/* Puts an input for one seed at the end of a page. */
typedef void maker(struct dice *dice, uint64_t seed, struct text *out);

/* dice.c */
struct dice dice_of(uint64_t seed, const char *kind);
uint32_t dice_number(struct dice *dice);
uint32_t below(struct dice *dice, uint32_t count);
uint32_t between(struct dice *dice, uint32_t least, uint32_t most);
int chance(struct dice *dice, uint32_t percent);

/* book.c: good rows, tables and tapes */
unsigned any_event(struct dice *dice, uint32_t role_count);
void good_periodic(struct dice *dice, struct periodic *row, uint32_t role_count, uint32_t around);
void good_trigger(struct dice *dice, struct trigger *row, uint32_t role_count);
struct request good_request(struct dice *dice, uint32_t role_count);
void make_loop_free(struct dice *dice, struct trigger *trigger, uint32_t count);
void say_counts(struct book *book);
void good_tape(struct dice *dice, struct book *book, uint32_t span);
void add_periodic_rows(struct dice *dice, struct book *book, uint32_t count);
void good_book(struct dice *dice, struct book *book);
void book_for_damage(struct dice *dice, struct book *book);
void dense_book(struct dice *dice, struct book *book);
void shaped_book(struct dice *dice, struct book *book, enum shape shape);

/* shapes.c */
void shape_triggers(struct dice *dice, struct book *book, enum shape shape, uint32_t count);
void loop_book(struct dice *dice, struct book *book, uint32_t length, uint32_t neighbour);

/* pages.c: a book as text */
void put_header(struct text *out, const struct book *book);
void put_end(struct text *out, const struct book *book);
void put_sheet(struct text *out, const struct book *book);
void put_mixed(struct dice *dice, struct text *out, const struct book *book, uint32_t percent);
void put_request(struct text *out, uint32_t instant, const struct request *request);
void put_last(struct text *out, uint32_t last);
void put_tape(struct text *out, const struct book *book);

/* damage.c: changes of a text */
uint32_t line_count(const struct text *text);
size_t line_start(const struct text *text, uint32_t line);
void replace(struct text *text, size_t at, size_t drop, const uint8_t *bytes, size_t length);
void mend_checks(struct text *text);
void damage(struct dice *dice, struct text *text);
void damage_mended(struct dice *dice, struct text *text, uint32_t times);

/* edges.c: the edges of each limit */
uint32_t row_edges(void);
uint32_t text_edges(void);
uint32_t tape_edges(void);
int of_periodic(const struct edge *edge);
uint32_t row_at(struct dice *dice, enum where where, uint32_t count);
void set_edge(struct dice *dice, struct book *book, const struct edge *edge, enum where where);
void row_edge(struct dice *dice, struct book *book, uint32_t which);
void text_edge(struct dice *dice, struct text *text, const struct book *book, uint32_t which);
void tape_edge(struct dice *dice, struct text *text, const struct book *book, uint32_t which);

/* inputs.c: whole inputs that are odd */
uint32_t odd_inputs(void);
void odd_input(struct dice *dice, struct text *text, const struct book *book, uint32_t which);

/* gentables.c: lent tables of cases */
void table_case_of(struct table_case *to, const struct book *book);
void set_unused_places(struct trigger *row, uint8_t value);
void junk_unused(struct dice *dice, struct table_case *to);
void trim_rows(struct table_case *to);
void spoil_loop(struct dice *dice, struct table_case *to);
void give_loop(struct dice *dice, struct table_case *to);
void spoil_row(struct dice *dice, struct table_case *to, uint32_t which);

/* gensteps.c: step cases */
void step_case_of(struct dice *dice, struct step_case *to, const struct book *book);
void wrong_request(struct dice *dice, struct request *request, uint32_t role_count, uint32_t which);
void spoil_step(struct dice *dice, struct step_case *to, uint32_t which);
uint32_t step_spoils(void);

/* lists.c: the requests of step cases */
uint32_t request_lists(void);
void list_requests(struct dice *dice, struct step_case *to, uint32_t which, uint32_t way);
void order_requests(struct dice *dice, struct step_case *to, int other);

/* bounds.c: books at the bounds that the writer accepts, and books just outside them */
uint32_t row_sizes(void);
uint32_t inside_edges(void);
uint32_t outside_edges(void);
void sized_book(struct dice *dice, struct book *book, uint32_t which);
void inside_book(struct dice *dice, struct book *book, uint32_t which);
void book_for_edges(struct dice *dice, struct book *book);
const struct edge *set_outside(struct dice *dice, struct book *book, uint32_t which, enum where where);
void accepted_book(struct dice *dice, struct book *book);

/* genwrites.c: write cases */
void write_case_of(struct dice *dice, struct write_case *to, const struct book *book);
maker write_good, write_dense, write_rows, write_field, write_wrong, write_unused, write_length;
maker write_count, write_loop, write_tangle, write_spoils;

/* gen.c */
void wrap_read(struct dice *dice, struct text *out, const struct text *sheet);

/* faults.c: lines with fields outside their limits */
uint32_t wrong_fields(enum sort sort);
void set_wrong(struct dice *dice, struct text *text, uint32_t line, enum sort sort, uint32_t which,
               int alone);
void set_wrong_size(struct dice *dice, struct text *text, uint32_t line);
uint32_t line_of(struct dice *dice, const struct text *text, enum sort sort, enum where where);

/* typing.c: lines that are typed wrongly */
uint32_t typings(void);
void mistype(struct dice *dice, struct text *text, uint32_t line, uint32_t way, uint32_t column);

/* genfaults.c: sheets and tapes with one fault, or with several in one line */
maker read_frame, read_wrong, read_faults, sheet_frame, sheet_wrong, sheet_faults;
maker day_frame, day_wrong, day_faults;

/* genlines.c: line cases */
maker line_place, line_odd, line_far, line_size, line_day;

/* gensheets.c: inputs of the command sheet */
maker sheet_good, sheet_order, sheet_dense, sheet_rest, sheet_loop, sheet_damage, sheet_mend;

#endif
