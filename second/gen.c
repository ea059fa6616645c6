/* The kinds of generated inputs and the commands gen and kinds. */
#include "gen.h"

#include <stdio.h>
#include <string.h>

/* A kind: its name, the command that takes it, what it is, and how it is made. */
struct kind {
    const char *name;
    const char *command;
    const char *what;
    maker *make;
};

static struct book book; /* the book in the making */

/* --- whole days --- */

/* A good sheet and tape of any shape. */
static void day_good(struct dice *dice, uint64_t seed, struct text *out)
{
    (void)seed;
    good_book(dice, &book);
    put_sheet(out, &book);
    put_tape(out, &book);
}

/* A good sheet and tape of one to three roles only, where much conflicts. */
static void day_small(struct dice *dice, uint64_t seed, struct text *out)
{
    uint32_t i, triggers;

    (void)seed;
    memset(&book, 0, sizeof book);
    book.version = 1;
    book.role_count = between(dice, 1, 3);
    book.periodic_count = between(dice, 1, 8);
    for (i = 0; i < book.periodic_count; i++) {
        good_periodic(dice, &book.periodic[i], book.role_count, 20);
    }
    triggers = between(dice, 1, 10);
    shape_triggers(dice, &book, chance(dice, 50) ? MIXED : ORDERED, triggers);
    say_counts(&book);
    good_tape(dice, &book, between(dice, 10, 90));
    put_sheet(out, &book);
    put_tape(out, &book);
}

/* A dense good sheet and tape near every limit. */
static void day_dense(struct dice *dice, uint64_t seed, struct text *out)
{
    (void)seed;
    dense_book(dice, &book);
    put_sheet(out, &book);
    put_tape(out, &book);
}

/* Deep chains, + rings and ladders of - edges. */
static void day_chain(struct dice *dice, uint64_t seed, struct text *out)
{
    shaped_book(dice, &book, (enum shape)(CHAIN + seed % 3));
    put_sheet(out, &book);
    put_tape(out, &book);
}

/* A cycle of 1 to 128 events, or its neighbour without a loop. */
static void day_loop(struct dice *dice, uint64_t seed, struct text *out)
{
    loop_book(dice, &book, (uint32_t)(seed % 128) + 1, (uint32_t)(seed / 128 % 4));
    put_sheet(out, &book);
    put_tape(out, &book);
}

/* A random sheet that may have loops, many or none. */
static void day_tangle(struct dice *dice, uint64_t seed, struct text *out)
{
    (void)seed;
    shaped_book(dice, &book, TANGLE);
    put_sheet(out, &book);
    put_tape(out, &book);
}

/* A field at the edge of its limit. */
static void day_edge(struct dice *dice, uint64_t seed, struct text *out)
{
    good_book(dice, &book);
    row_edge(dice, &book, (uint32_t)(seed % row_edges()));
    put_sheet(out, &book);
    put_tape(out, &book);
}

/* The lines of the sheet at an edge, the tape following. */
static void day_lines(struct dice *dice, uint64_t seed, struct text *out)
{
    good_book(dice, &book);
    put_sheet(out, &book);
    text_edge(dice, out, &book, (uint32_t)(seed % text_edges()));
    if (chance(dice, 80)) {
        put_tape(out, &book);
    }
}

/* The tape at an edge. */
static void day_tape(struct dice *dice, uint64_t seed, struct text *out)
{
    good_book(dice, &book);
    tape_edge(dice, out, &book, (uint32_t)(seed % tape_edges()));
}

/* Changes one character of the sheet of an input to a digit. */
static void damage_sheet(struct dice *dice, struct text *out)
{
    size_t end = line_start(out, book.periodic_count + book.trigger_count + 2);

    out->bytes[below(dice, (uint32_t)end)] = (uint8_t)"0123456789ABCDEF"[below(dice, 16)];
}

/* A sheet and a tape that are both wrong, more often than not: the sheet's refusal comes first. */
static void day_both(struct dice *dice, uint64_t seed, struct text *out)
{
    uint32_t edge = below(dice, tape_edges()), way = (uint32_t)(seed % 4);

    if (way == 0) {
        loop_book(dice, &book, between(dice, 1, 128), 0);
    } else {
        good_book(dice, &book);
    }
    if (way == 1) {
        row_edge(dice, &book, below(dice, row_edges()));
    }
    tape_edge(dice, out, &book, edge);
    if (way > 1) {
        damage_sheet(dice, out);
    }
    if (way > 2) {
        mend_checks(out);
    }
}

/* An input that is odd as a whole. */
static void day_odd(struct dice *dice, uint64_t seed, struct text *out)
{
    good_book(dice, &book);
    odd_input(dice, out, &book, (uint32_t)(seed % odd_inputs()));
}

/* Some characters or lines damaged. */
static void day_damage(struct dice *dice, uint64_t seed, struct text *out)
{
    (void)seed;
    book_for_damage(dice, &book);
    put_sheet(out, &book);
    put_tape(out, &book);
    damage(dice, out);
}

/* Some bytes or lines damaged and the checks put right. */
static void day_mend(struct dice *dice, uint64_t seed, struct text *out)
{
    uint32_t times = chance(dice, 60) ? 1 : between(dice, 1, 4);

    (void)seed;
    book_for_damage(dice, &book);
    put_sheet(out, &book);
    put_tape(out, &book);
    damage_mended(dice, out, times);
}

/* Puts a good input of exactly so many bytes, for sizes from about 65,500. */
static void sized_day(struct dice *dice, struct text *out, uint32_t size)
{
    uint32_t requests = between(dice, 3060, 3150), rest = size - 33 - 19 * requests;
    uint32_t rows = rest / 29, i, extra;
    struct request request;

    rows += (rows + rest) % 2;
    memset(&book, 0, sizeof book);
    book.version = 1;
    book.role_count = 64;
    extra = (rest - 17 * rows) / 2; /* events and conditions past the first event, at most 7 a row */
    for (i = 0; i < rows; i++) {
        good_trigger(dice, &book.trigger[i], 64);
        book.trigger[i].event_count = (uint8_t)(1 + (extra > 3 ? 3 : extra));
        extra -= book.trigger[i].event_count - 1u;
        book.trigger[i].condition_count = (uint8_t)(extra > 4 ? 4 : extra);
        extra -= book.trigger[i].condition_count;
    }
    book.trigger_count = rows;
    make_loop_free(dice, book.trigger, rows);
    say_counts(&book);
    put_sheet(out, &book);
    for (i = 0; i < requests; i++) {
        request = good_request(dice, 64);
        put_request(out, i / 32, &request);
    }
    put_last(out, between(dice, 100, 110));
}

/*
 * Puts frames of an unknown or known kind before the end so that a sheet has exactly so many
 * bytes.
 */
static void pad_sheet(struct dice *dice, struct text *text, uint32_t size)
{
    static struct text padding;
    uint32_t room = size - (uint32_t)text->length, i, bytes;
    uint8_t frame[8200];

    text_clear(&padding);
    memset(frame, 0, sizeof frame);
    frame[0] = (uint8_t)(chance(dice, 50) ? 0x30 : 0x77);
    for (i = chance(dice, 50) ? 300 : 0; i > 0 && room > 200; i--) {
        put_periodic(&padding, &book.periodic[0]);
        room -= 37;
    }
    if (room % 2 == 0) { /* one more line, as each line has an odd number of bytes */
        put_periodic(&padding, &book.periodic[0]);
        room -= 37;
    }
    bytes = (room - 1) / 2;
    for (i = 1; i < bytes; i++) {
        frame[i] = (uint8_t)(i < 3 ? 0 : below(dice, 256));
    }
    text_frame(&padding, frame, bytes - 1);
    replace(text, line_start(text, line_count(text) - 1), 0, padding.bytes, padding.length);
}

/* A sheet of 16,382 to 16,387 bytes. */
static void sized_sheet(struct dice *dice, uint64_t seed, struct text *out)
{
    good_book(dice, &book);
    if (book.periodic_count == 0) {
        good_periodic(dice, &book.periodic[0], book.role_count, 10);
    }
    put_sheet(out, &book);
    pad_sheet(dice, out, 16382 + (uint32_t)(seed % 6));
    if (chance(dice, 20)) {
        out->bytes[below(dice, 40)] = 'g';
    }
}

/*
 * Changes the end line of the sheet of a long input: it begins F0 but is wrong, or does not
 * begin F0.
 */
static void spoil_end_line(struct text *out, uint32_t way)
{
    size_t at = line_start(out, book.periodic_count + book.trigger_count + 1);

    if (way == 0) {
        replace(out, at + 2, 0, (const uint8_t *)"0", 1);
    } else if (way == 1) {
        replace(out, at + 2, 2, NULL, 0);
    } else {
        out->bytes[at] = 'E';
    }
}

/* Inputs at the limit of 65,536 bytes and sheets at the limit of 16,384. */
static void day_size(struct dice *dice, uint64_t seed, struct text *out)
{
    uint32_t way = below(dice, 8);

    if (seed % 3 == 0) {
        sized_sheet(dice, seed / 3, out);
        put_tape(out, &book);
        return;
    }
    sized_day(dice, out, 65534 + (uint32_t)(seed % 5));
    if (way == 0) {
        text_byte(out, 0x0A);
    } else if (way == 1) {
        out->length--;
    } else if (way < 5) {
        spoil_end_line(out, way - 2);
    }
}

/* A long day, up to 10,081 instants. */
static void day_long(struct dice *dice, uint64_t seed, struct text *out)
{
    uint32_t i;

    (void)seed;
    good_book(dice, &book);
    for (i = 0; i < book.tape.count; i++) {
        book.tape.instants[i] *= 50;
    }
    book.tape.last = chance(dice, 30) ? 10080 : between(dice, 10000, 10080);
    put_sheet(out, &book);
    put_tape(out, &book);
}

/* One line of any digits, with the check right at times. */
static void junk_line(struct dice *dice, struct text *out)
{
    uint8_t bytes[40];
    uint32_t length = below(dice, sizeof bytes), i;

    for (i = 0; i < length; i++) {
        bytes[i] = (uint8_t)(chance(dice, 30) ? 0 : dice_number(dice));
    }
    if (length > 0 && chance(dice, 70)) {
        bytes[0] = (uint8_t)"\x10\x20\x30\x40\xF0\xF1\x00\x50"[below(dice, 8)];
    }
    text_frame(out, bytes, length);
}

/* Lines and bytes of anything. */
static void junk(struct dice *dice, uint64_t seed, struct text *out)
{
    uint32_t lines = below(dice, 6), i;

    if (seed % 4 == 0) {
        for (i = below(dice, 80); i > 0; i--) {
            text_byte(out, below(dice, 256));
        }
        return;
    }
    memset(&book, 0, sizeof book);
    book.version = 1;
    book.role_count = between(dice, 1, 64);
    if (seed % 4 > 1) {
        put_header(out, &book);
    }
    for (i = 0; i < lines; i++) {
        junk_line(dice, out);
    }
    put_end(out, &book);
    put_last(out, below(dice, 9));
}

/* --- single sheets --- */

/* Makes a read case of the page that a maker made, with its own lengths and fill. */
void wrap_read(struct dice *dice, struct text *out, const struct text *sheet)
{
    struct read_case made;

    made.sheet_length = (uint32_t)sheet->length;
    made.periodic_length = PERIODIC_MOST;
    made.trigger_length = TRIGGERS_MOST;
    made.fill = (uint8_t)dice_number(dice);
    put_read_case(out, &made, sheet->bytes);
}

static struct text page; /* the sheet in the making */

/* A good sheet. */
static void read_good(struct dice *dice, uint64_t seed, struct text *out)
{
    (void)seed;
    text_clear(&page);
    good_book(dice, &book);
    put_sheet(&page, &book);
    wrap_read(dice, out, &page);
}

/* A dense good sheet near every limit. */
static void read_dense(struct dice *dice, uint64_t seed, struct text *out)
{
    (void)seed;
    text_clear(&page);
    dense_book(dice, &book);
    put_sheet(&page, &book);
    wrap_read(dice, out, &page);
}

/* A cycle of 1 to 128 events, or its neighbour without a loop. */
static void read_loop(struct dice *dice, uint64_t seed, struct text *out)
{
    text_clear(&page);
    loop_book(dice, &book, (uint32_t)(seed % 128) + 1, (uint32_t)(seed / 128 % 4));
    put_sheet(&page, &book);
    wrap_read(dice, out, &page);
}

/* A random sheet that may have loops, many or none. */
static void read_tangle(struct dice *dice, uint64_t seed, struct text *out)
{
    (void)seed;
    text_clear(&page);
    shaped_book(dice, &book, TANGLE);
    put_sheet(&page, &book);
    wrap_read(dice, out, &page);
}

/* A field at the edge of its limit. */
static void read_edge(struct dice *dice, uint64_t seed, struct text *out)
{
    text_clear(&page);
    good_book(dice, &book);
    row_edge(dice, &book, (uint32_t)(seed % row_edges()));
    put_sheet(&page, &book);
    wrap_read(dice, out, &page);
}

/* The lines of the sheet at an edge. */
static void read_lines(struct dice *dice, uint64_t seed, struct text *out)
{
    text_clear(&page);
    good_book(dice, &book);
    put_sheet(&page, &book);
    text_edge(dice, &page, &book, (uint32_t)(seed % text_edges()));
    wrap_read(dice, out, &page);
}

/* Some characters or lines damaged. */
static void read_damage(struct dice *dice, uint64_t seed, struct text *out)
{
    (void)seed;
    text_clear(&page);
    book_for_damage(dice, &book);
    put_sheet(&page, &book);
    damage(dice, &page);
    wrap_read(dice, out, &page);
}

/* Some bytes or lines damaged and the checks put right. */
static void read_mend(struct dice *dice, uint64_t seed, struct text *out)
{
    uint32_t times = chance(dice, 60) ? 1 : between(dice, 1, 4);

    (void)seed;
    text_clear(&page);
    book_for_damage(dice, &book);
    put_sheet(&page, &book);
    damage_mended(dice, &page, times);
    wrap_read(dice, out, &page);
}

/* Sheets at the limit of 16,384 bytes and far over it, and tables of other lengths. */
static void read_length(struct dice *dice, uint64_t seed, struct text *out)
{
    static const uint16_t periodic[] = {128, 127, 129, 0, 256, 128};
    static const uint16_t triggers[] = {256, 255, 257, 0, 512, 256};
    struct read_case made;
    int exact = seed % 2 == 0 && chance(dice, 80);

    text_clear(&page);
    if (seed % 2 == 0) {
        sized_sheet(dice, seed / 2, &page);
    } else {
        good_book(dice, &book);
        put_sheet(&page, &book);
    }
    while (seed % 9 == 8 && page.length < FORM_SHEET_MOST) {
        text_byte(&page, '0');
    }
    made.sheet_length = (uint32_t)page.length;
    made.periodic_length = periodic[exact ? 0 : below(dice, 6)];
    made.trigger_length = triggers[exact ? 0 : below(dice, 6)];
    made.fill = (uint8_t)dice_number(dice);
    put_read_case(out, &made, page.bytes);
}

/* Lines and bytes of anything. */
static void read_junk(struct dice *dice, uint64_t seed, struct text *out)
{
    text_clear(&page);
    junk(dice, seed, &page);
    wrap_read(dice, out, &page);
}

/* --- single steps --- */

static struct step_case made_step; /* the step in the making */

/* A good step from an arbitrary state. */
static void step_good(struct dice *dice, uint64_t seed, struct text *out)
{
    (void)seed;
    good_book(dice, &book);
    step_case_of(dice, &made_step, &book);
    spoil_step(dice, &made_step, 0);
    put_step_case(out, &made_step);
}

/* A dense good step. */
static void step_dense(struct dice *dice, uint64_t seed, struct text *out)
{
    (void)seed;
    dense_book(dice, &book);
    step_case_of(dice, &made_step, &book);
    spoil_step(dice, &made_step, 0);
    put_step_case(out, &made_step);
}

/* A step in deep chains, + rings and ladders of - edges. */
static void step_chain(struct dice *dice, uint64_t seed, struct text *out)
{
    shaped_book(dice, &book, (enum shape)(CHAIN + seed % 3));
    step_case_of(dice, &made_step, &book);
    made_step.instant -= made_step.instant % 12;
    spoil_step(dice, &made_step, 0);
    put_step_case(out, &made_step);
}

/* A step at an instant among the last or after them. */
static void step_last(struct dice *dice, uint64_t seed, struct text *out)
{
    static const uint32_t instants[] = {16777215, 16777216, UINT32_MAX, 16777214, 16777217, 16777154};

    good_book(dice, &book);
    step_case_of(dice, &made_step, &book);
    made_step.instant = instants[seed % 6];
    spoil_step(dice, &made_step, 0);
    put_step_case(out, &made_step);
}

/* A step with a cycle of 1 to 128 events, or its neighbour without a loop. */
static void step_loop(struct dice *dice, uint64_t seed, struct text *out)
{
    loop_book(dice, &book, (uint32_t)(seed % 128) + 1, (uint32_t)(seed / 128 % 4));
    step_case_of(dice, &made_step, &book);
    spoil_step(dice, &made_step, 0);
    put_step_case(out, &made_step);
}

/* A step with random triggers that may have loops. */
static void step_tangle(struct dice *dice, uint64_t seed, struct text *out)
{
    (void)seed;
    shaped_book(dice, &book, TANGLE);
    step_case_of(dice, &made_step, &book);
    spoil_step(dice, &made_step, 0);
    put_step_case(out, &made_step);
}

/* A step with a field of its tables at the edge of its limit. */
static void step_edge(struct dice *dice, uint64_t seed, struct text *out)
{
    good_book(dice, &book);
    row_edge(dice, &book, (uint32_t)(seed % row_edges()));
    step_case_of(dice, &made_step, &book);
    put_step_case(out, &made_step);
}

/* A step with one thing spoiled: every refusal. */
static void step_spoil(struct dice *dice, uint64_t seed, struct text *out)
{
    good_book(dice, &book);
    step_case_of(dice, &made_step, &book);
    spoil_step(dice, &made_step, (uint32_t)(seed % step_spoils()));
    put_step_case(out, &made_step);
}

/* A step with several things spoiled at once. */
static void step_spoils_many(struct dice *dice, uint64_t seed, struct text *out)
{
    uint32_t times = between(dice, 2, 4);

    (void)seed;
    good_book(dice, &book);
    step_case_of(dice, &made_step, &book);
    while (times > 0) {
        spoil_step(dice, &made_step, between(dice, 1, step_spoils() - 1));
        times--;
    }
    put_step_case(out, &made_step);
}

/* A good step with a list of requests of any length, right or with wrong ones. */
static void step_lists(struct dice *dice, uint64_t seed, struct text *out)
{
    good_book(dice, &book);
    step_case_of(dice, &made_step, &book);
    list_requests(dice, &made_step, (uint32_t)(seed % request_lists()), (uint32_t)(seed / request_lists()));
    spoil_step(dice, &made_step, 0);
    put_step_case(out, &made_step);
}

/* A good step, the same for the seeds 2k - 1 and 2k but for the order of its requests. */
static void step_order(struct dice *dice, uint64_t seed, struct text *out)
{
    *dice = dice_of((seed + 1) / 2, "step-order");
    good_book(dice, &book);
    step_case_of(dice, &made_step, &book);
    spoil_step(dice, &made_step, 0);
    order_requests(dice, &made_step, seed % 2 == 0);
    put_step_case(out, &made_step);
}

static const struct kind kinds[] = {
    {"day-good", "day", "good sheets and tapes of every shape", day_good},
    {"day-small", "day", "one to three roles, much conflict", day_small},
    {"day-dense", "day", "near every limit", day_dense},
    {"day-chain", "day", "deep chains, + rings, ladders of - edges", day_chain},
    {"day-loop", "day", "cycles of 1 to 128 events and their neighbours", day_loop},
    {"day-tangle", "day", "random triggers, with loops or without", day_tangle},
    {"day-edge", "day", "a field at the edge of its limit", day_edge},
    {"day-lines", "day", "odd, missing and doubled lines of the sheet", day_lines},
    {"day-tape", "day", "tapes at every edge and with every refusal", day_tape},
    {"day-both", "day", "sheet and tape both at an edge or damaged", day_both},
    {"day-odd", "day", "empty, endless, not split, doubled, far down", day_odd},
    {"day-damage", "day", "characters and lines damaged", day_damage},
    {"day-mend", "day", "bytes and lines damaged, checks put right", day_mend},
    {"day-size", "day", "inputs near 65,536 bytes, sheets near 16,384", day_size},
    {"day-long", "day", "up to 10,081 instants", day_long},
    {"day-junk", "day", "anything", junk},
    {"day-frame", "day", "one line of the tape typed wrongly, at each column", day_frame},
    {"day-wrong", "day", "one field of the tape outside its limits, in each line", day_wrong},
    {"day-faults", "day", "several faults in one line of the tape", day_faults},
    {"read-good", "read", "good sheets of every shape", read_good},
    {"read-dense", "read", "near every limit", read_dense},
    {"read-loop", "read", "cycles of 1 to 128 events and their neighbours", read_loop},
    {"read-tangle", "read", "random triggers, with loops or without", read_tangle},
    {"read-edge", "read", "a field at the edge of its limit", read_edge},
    {"read-lines", "read", "odd, missing and doubled lines", read_lines},
    {"read-damage", "read", "characters and lines damaged", read_damage},
    {"read-mend", "read", "bytes and lines damaged, checks put right", read_mend},
    {"read-length", "read", "sheets near 16,384 bytes, tables of other lengths", read_length},
    {"read-junk", "read", "anything", read_junk},
    {"read-frame", "read", "one line typed wrongly, at each column", read_frame},
    {"read-wrong", "read", "one field outside its limits, in each line and place", read_wrong},
    {"read-faults", "read", "several faults in one line", read_faults},
    {"step-good", "step", "good steps from arbitrary states", step_good},
    {"step-dense", "step", "near every limit", step_dense},
    {"step-chain", "step", "deep chains, + rings, ladders of - edges", step_chain},
    {"step-last", "step", "the last instants and those after them", step_last},
    {"step-loop", "step", "cycles of 1 to 128 events and their neighbours", step_loop},
    {"step-tangle", "step", "random triggers, with loops or without", step_tangle},
    {"step-edge", "step", "a field of the tables at the edge of its limit", step_edge},
    {"step-spoil", "step", "one thing spoiled, every refusal", step_spoil},
    {"step-spoils", "step", "several things spoiled at once", step_spoils_many},
    {"step-lists", "step", "0 to 1,024 requests, wrong ones in any place, repeats", step_lists},
    {"step-order", "step", "the same requests in two orders, seeds 2k - 1 and 2k", step_order},
    {"write-good", "write", "good tables of every shape, junk in what is unused", write_good},
    {"write-dense", "write", "near every limit", write_dense},
    {"write-rows", "write", "from no rows to the longest sheet, all counts of a body", write_rows},
    {"write-field", "write", "a field at its least or greatest value, accepted", write_field},
    {"write-wrong", "write", "one field outside its limits, in each row and place", write_wrong},
    {"write-unused", "write", "wrong only where it is unused, accepted", write_unused},
    {"write-length", "write", "tables and buffers of other lengths", write_length},
    {"write-count", "write", "counts over their limits or over the rows given", write_count},
    {"write-loop", "write", "cycles of 1 to 128 events and their neighbours", write_loop},
    {"write-tangle", "write", "random triggers, with loops or without", write_tangle},
    {"write-spoils", "write", "several things spoiled at once", write_spoils},
    {"sheet-good", "sheet", "accepted, rows mixed; nothing, a tape or bytes after it", sheet_good},
    {"sheet-order", "sheet", "accepted, periodic rows before the triggers", sheet_order},
    {"sheet-dense", "sheet", "accepted, near every limit, rows mixed", sheet_dense},
    {"sheet-rest", "sheet", "accepted; anything after it, up to 65,536 bytes and over", sheet_rest},
    {"sheet-damage", "sheet", "characters and lines of the sheet damaged", sheet_damage},
    {"sheet-mend", "sheet", "bytes and lines of the sheet damaged, checks put right", sheet_mend},
    {"sheet-loop", "sheet", "cycles of 1 to 128 events and their neighbours", sheet_loop},
    {"sheet-tangle", "sheet", "random triggers, with loops or without", day_tangle},
    {"sheet-edge", "sheet", "a field at the edge of its limit", day_edge},
    {"sheet-lines", "sheet", "odd, missing and doubled lines of the sheet", day_lines},
    {"sheet-odd", "sheet", "empty, endless, not split, doubled, far down", day_odd},
    {"sheet-size", "sheet", "inputs near 65,536 bytes, sheets near 16,384", day_size},
    {"sheet-junk", "sheet", "anything", junk},
    {"sheet-frame", "sheet", "one line typed wrongly, at each column", sheet_frame},
    {"sheet-wrong", "sheet", "one field outside its limits, in each line and place", sheet_wrong},
    {"sheet-faults", "sheet", "several faults in one line", sheet_faults},
    {"line-place", "line", "a few lines of anything, each line and each answer", line_place},
    {"line-odd", "line", "empty, only 0A's, no final 0A: each such sheet with each tape", line_odd},
    {"line-far", "line", "many lines, places near their number and far past them", line_far},
    {"line-size", "line", "long lines, seldom up to 98,304 bytes each", line_size},
    {"line-day", "line", "what the day program answers of sheets and tapes with faults", line_day}
};

enum { KINDS = sizeof kinds / sizeof kinds[0] };

/* The command kinds: each kind, the command that takes it, and what it is. */
int command_kinds(void)
{
    unsigned i;

    for (i = 0; i < KINDS; i++) {
        printf("%-12s %-5s %s\n", kinds[i].name, kinds[i].command, kinds[i].what);
    }
    return 0;
}

/* Whether the command of a kind takes one input a run, and not many cases. */
static int takes_one(const struct kind *kind)
{
    return strcmp(kind->command, "day") == 0 || strcmp(kind->command, "sheet") == 0;
}

/* The command gen: one input, or where many cases are taken those of so many consecutive seeds. */
int command_gen(uint64_t seed, const char *name, uint64_t cases)
{
    static struct text out;
    struct dice dice;
    unsigned i;
    uint64_t n;

    for (i = 0; i < KINDS && strcmp(kinds[i].name, name) != 0; i++) {
    }
    if (i == KINDS) {
        fprintf(stderr, "second: no such kind: %s\n", name);
        return 2;
    }
    if (cases != 1 && takes_one(&kinds[i])) {
        fprintf(stderr, "second: a %s takes one input a run\n", kinds[i].command);
        return 2;
    }
    for (n = 0; n < cases; n++) {
        text_clear(&out);
        dice = dice_of(seed + n, name);
        kinds[i].make(&dice, seed + n, &out);
        text_print(&out);
    }
    return 0;
}
