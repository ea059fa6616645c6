/* A book as the text of a sheet and a tape. */
#include "gen.h"

/* The header line. */
void put_header(struct text *out, const struct book *book)
{
    put_header_of(out, book->version, book->role_count);
}

/* The end line with the counts that the book says. */
void put_end(struct text *out, const struct book *book)
{
    put_end_of(out, book->end_periodic, book->end_trigger);
}

/* How many rows of a book were put so far. */
struct rows_put {
    uint32_t periodic;
    uint32_t triggers;
};

/* Whether rows of the book are left. */
static int rows_left(const struct book *book, const struct rows_put *rows)
{
    return rows->periodic < book->periodic_count || rows->triggers < book->trigger_count;
}

/* Puts the next row of a book: of the periodic ones if asked, unless only the others are left. */
static void put_row(struct text *out, const struct book *book, struct rows_put *rows, int periodic)
{
    if (rows->periodic < book->periodic_count
        && (periodic || rows->triggers >= book->trigger_count)) {
        put_periodic(out, &book->periodic[rows->periodic++]);
    } else {
        put_trigger(out, &book->trigger[rows->triggers++]);
    }
}

/* The whole sheet: the header, periodic rows and triggers in turns, the end. */
void put_sheet(struct text *out, const struct book *book)
{
    struct rows_put rows = {0, 0};

    put_header(out, book);
    while (rows_left(book, &rows)) {
        put_row(out, book, &rows, (rows.periodic * 7 + rows.triggers * 3) % 5 < 3);
    }
    put_end(out, book);
}

/*
 * The whole sheet, each next row a periodic one in so many of a hundred cases: 100 puts them all
 * before the triggers, 0 all after them.
 */
void put_mixed(struct dice *dice, struct text *out, const struct book *book, uint32_t percent)
{
    struct rows_put rows = {0, 0};

    put_header(out, book);
    while (rows_left(book, &rows)) {
        put_row(out, book, &rows, chance(dice, percent));
    }
    put_end(out, book);
}

/* A request line. */
void put_request(struct text *out, uint32_t instant, const struct request *request)
{
    uint8_t bytes[8];

    bytes[0] = 0x40;
    put_number(bytes + 1, instant, 4);
    bytes[5] = request->event;
    bytes[6] = request->priority;
    bytes[7] = request->delay;
    text_frame(out, bytes, sizeof bytes);
}

/* The line F1 with the last instant. */
void put_last(struct text *out, uint32_t last)
{
    uint8_t bytes[5];

    bytes[0] = 0xF1;
    put_number(bytes + 1, last, 4);
    text_frame(out, bytes, sizeof bytes);
}

/* The whole tape. */
void put_tape(struct text *out, const struct book *book)
{
    size_t i;

    for (i = 0; i < book->tape.count; i++) {
        put_request(out, book->tape.instants[i], &book->tape.requests[i]);
    }
    put_last(out, book->tape.last);
}
