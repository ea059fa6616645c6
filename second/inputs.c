/* Whole inputs of a day that are odd: empty, endless, not split, doubled, or far over a tape. */
#include "gen.h"

#include <string.h>

enum { ODD_INPUTS = 39 };

/* How many odd inputs there are. */
uint32_t odd_inputs(void)
{
    return ODD_INPUTS;
}

/* Puts characters as they are. */
static void put_characters(struct text *out, const char *characters)
{
    while (*characters != 0) {
        text_byte(out, (unsigned char)*characters);
        characters++;
    }
}

/* Puts one character until the text has so many bytes. */
static void fill_to(struct text *out, char character, size_t size)
{
    while (out->length < size) {
        text_byte(out, (unsigned char)character);
    }
}

/* Puts so many good requests, each instant having up to 32 of them. */
static void put_requests(struct dice *dice, struct text *out, const struct book *book, uint32_t count)
{
    uint32_t i, each = between(dice, 1, 32);
    struct request request;

    for (i = 0; i < count; i++) {
        request = good_request(dice, book->role_count);
        put_request(out, i / each, &request);
    }
}

/* Inputs of very few bytes, and the smallest day. */
static void few_bytes(struct text *out, const struct book *book, uint32_t which)
{
    static const char *const inputs[] = {"", "\n", "F", "F0", "F0\n", "F0000000"};
    static struct book empty;

    if (which < 6) {
        put_characters(out, inputs[which]);
        return;
    }
    memset(&empty, 0, sizeof empty);
    empty.version = 1;
    empty.role_count = book->role_count;
    put_sheet(out, &empty);
    put_tape(out, &empty);
}

/* Inputs whose end line is not there, does not begin F0, or is cut short. */
static void end_line(struct text *out, const struct book *book, uint32_t which)
{
    size_t at;

    put_sheet(out, book);
    at = line_start(out, line_count(out) - 1);
    if (which == 0) {
        out->length = at;
    } else if (which == 1) {
        out->length = at;
        put_tape(out, book);
    } else if (which == 2) {
        out->bytes[at] = 'f';
        put_tape(out, book);
    } else if (which == 3) {
        replace(out, at, 0, (const uint8_t *)" ", 1);
        put_tape(out, book);
    } else if (which == 4) {
        out->length = at + 2;
    } else if (which == 5) {
        out->length = at + 1;
        put_tape(out, book);
    } else {
        replace(out, at, 0, (const uint8_t *)"F1000000000F\n", 13);
        put_tape(out, book);
    }
}

/*
 * Inputs without a line that begins F0 whose tape alone is longer than a sheet may be: were one of
 * their lines taken for the end, the answer would be another.
 */
static void not_split(struct dice *dice, struct text *out, const struct book *book, uint32_t which)
{
    static const char *const before[] = {"", " ", "F\n", "0"};
    uint32_t rows = book->periodic_count + book->trigger_count;
    size_t at;

    put_sheet(out, book);
    at = line_start(out, rows + 1);
    if (which == 0) {
        out->bytes[at] = 'f';
    } else if (which == 2) {
        out->length = at;
    }
    replace(out, at, 0, (const uint8_t *)before[which], strlen(before[which]));
    put_requests(dice, out, book, between(dice, 900, 2300));
    put_last(out, 2300);
}

/* Puts so many good periodic rows, the last of them with a wrong field when asked. */
static void put_periodics(struct dice *dice, struct text *out, const struct book *book,
                          uint32_t count, int wrong)
{
    struct periodic row;

    for (; count > 0; count--) {
        good_periodic(dice, &row, book->role_count, 10);
        row.period = (uint16_t)(wrong && count == 1 ? 0 : row.period);
        put_periodic(out, &row);
    }
}

/* Puts so many good triggers, the last of them with a wrong field when asked. */
static void put_triggers(struct dice *dice, struct text *out, const struct book *book,
                         uint32_t count, int wrong)
{
    struct trigger row;

    for (; count > 0; count--) {
        good_trigger(dice, &row, book->role_count);
        row.delay = (uint8_t)(wrong && count == 1 ? 61 : row.delay);
        put_trigger(out, &row);
    }
}

/* Inputs with a row over the limit that also has a wrong field, or a wrong byte count. */
static void row_over(struct dice *dice, struct text *out, const struct book *book, uint32_t which)
{
    put_header(out, book);
    if (which == 0) {
        put_periodics(dice, out, book, PERIODIC_MOST + 1, 1);
    } else if (which == 1) {
        put_triggers(dice, out, book, TRIGGERS_MOST + 1, 1);
    } else if (which == 2) {
        put_periodics(dice, out, book, PERIODIC_MOST, 0);
        put_characters(out, "2000E0\n");
    } else {
        put_triggers(dice, out, book, TRIGGERS_MOST, 0);
        put_characters(out, "30010000CF\n");
    }
    put_end(out, book);
    put_tape(out, book);
}

/* Inputs with a line or with lines that go on up to a limit and, by some bytes, over it. */
static void endless(struct dice *dice, struct text *out, const struct book *book, uint32_t which)
{
    size_t sheet = 16382 + below(dice, 6), whole = 65534 + below(dice, 5);
    uint8_t frame[9000];

    if (which < 2) {
        fill_to(out, which == 0 ? '0' : '\n', sheet);
        return;
    }
    put_sheet(out, book);
    if (which == 2) {
        put_tape(out, book);
        fill_to(out, '0', out->length + between(dice, 1, 30));
    } else if (which == 3) {
        put_tape(out, book);
        fill_to(out, '0', whole);
    } else if (which == 4) {
        fill_to(out, '\n', whole);
    } else if (which == 5) {
        fill_to(out, '0', whole - 1);
        text_byte(out, 0x0A);
    } else {
        memset(frame, 0, sizeof frame);
        frame[0] = (uint8_t)(chance(dice, 50) ? 0x40 : 0xF1);
        text_frame(out, frame, (frame[0] == 0x40 ? 8 : 5) + 256 * between(dice, 1, 34));
        put_tape(out, book);
    }
}

/* Inputs with a long tape that is good up to its last lines, so that places have two bytes. */
static void far_down(struct dice *dice, struct text *out, const struct book *book, uint32_t which)
{
    struct request request = good_request(dice, book->role_count);

    put_sheet(out, book);
    put_requests(dice, out, book, between(dice, 300, 2500));
    if (which == 0) {
        return;
    }
    if (which == 1) {
        request.event = (uint8_t)(2 * book->role_count);
        put_request(out, 3000, &request);
    } else if (which == 2) {
        put_request(out, 3000, &request);
        put_request(out, 2999, &request);
    } else if (which == 3) {
        put_last(out, 2500);
        put_requests(dice, out, book, between(dice, 1, 40));
    } else {
        put_characters(out, "40000000000100BF\n");
    }
    put_last(out, 3000);
}

/* Puts 0D before each 0A. */
static void return_lines(struct text *out)
{
    size_t at;

    for (at = 0; at < out->length; at++) {
        if (out->bytes[at] == 0x0A) {
            replace(out, at, 0, (const uint8_t *)"\r", 1);
            at++;
        }
    }
}

/* Good parts in a wrong order or number, other line ends, and bytes of zero. */
static void parts(struct dice *dice, struct text *out, const struct book *book, uint32_t which)
{
    if (which == 0) {
        put_tape(out, book);
    } else if (which == 1) {
        put_end(out, book);
    }
    put_sheet(out, book);
    put_tape(out, book);
    if (which == 2) {
        put_sheet(out, book);
        put_tape(out, book);
    } else if (which == 3) {
        return_lines(out);
    } else if (which == 4) {
        text_byte(out, 0);
    }
    if (which == 4 && chance(dice, 50)) {
        out->bytes[below(dice, (uint32_t)out->length)] = 0;
    }
}

/* An odd input. */
void odd_input(struct dice *dice, struct text *out, const struct book *book, uint32_t which)
{
    which %= ODD_INPUTS;
    if (which < 7) {
        few_bytes(out, book, which);
    } else if (which < 14) {
        end_line(out, book, which - 7);
    } else if (which < 21) {
        endless(dice, out, book, which - 14);
    } else if (which < 26) {
        far_down(dice, out, book, which - 21);
    } else if (which < 31) {
        parts(dice, out, book, which - 26);
    } else if (which < 35) {
        not_split(dice, out, book, which - 31);
    } else {
        row_over(dice, out, book, which - 35);
    }
}
