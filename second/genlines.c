/* Line cases: sheets and tapes of every structure of lines, with answers that name one or none. */
#include "gen.h"

#include <string.h>

static struct text sheet, tape; /* the two texts in the making */

/* The numbers of an answer: those whose place is a line, then others, also such as mean nothing. */
static const uint8_t numbers[] = {
    FRAME, CHECK, KIND, FIELD, TOO_MANY, COUNT, REQUEST,
    OK, LENGTH, LOOP, LAST, 11, 12, 17, 18, 19, 127, 128, 130, 255
};

enum { NAMING = 7, NUMBERS = sizeof numbers };

/* A number of an answer, mostly one whose place is a line. */
static uint8_t any_number(struct dice *dice)
{
    return numbers[below(dice, chance(dice, 85) ? NAMING : NUMBERS)];
}

/* Makes both texts empty. */
static void start_texts(void)
{
    text_clear(&sheet);
    text_clear(&tape);
}

/* Puts a case of the two texts. */
static void put_case(struct text *out, uint8_t number, uint32_t place)
{
    struct line_case made;

    made.sheet_length = (uint32_t)sheet.length;
    made.tape_length = (uint32_t)tape.length;
    made.number = number;
    made.place = place;
    put_line_case(out, &made, sheet.bytes, tape.bytes);
}

/* How many lines both texts have together. */
static uint32_t both_lines(void)
{
    return line_count(&sheet) + line_count(&tape);
}

/* A byte of a line: mostly a digit, at times anything but 0A. */
static unsigned any_byte(struct dice *dice)
{
    uint32_t byte = below(dice, 256), digit = below(dice, 16);

    return chance(dice, 80) || byte == 0x0A ? (unsigned)"0123456789ABCDEF"[digit] : byte;
}

/* Puts so many lines of up to so many bytes, the last at times without its 0A. */
static void put_lines(struct dice *dice, struct text *text, uint32_t lines, uint32_t most)
{
    uint32_t i;

    for (; lines > 0; lines--) {
        for (i = below(dice, most + 1); i > 0; i--) {
            text_byte(text, any_byte(dice));
        }
        text_byte(text, 0x0A);
    }
    if (text->length > 0 && chance(dice, 30)) {
        text->length--;
    }
}

/* A few lines of anything; each number of an answer, each place up to two past the last line. */
void line_place(struct dice *dice, uint64_t seed, struct text *out)
{
    uint8_t number = numbers[seed / 2 % (seed % 2 == 0 ? NAMING : NUMBERS)];

    start_texts();
    put_lines(dice, &sheet, below(dice, 6), chance(dice, 50) ? 3 : 40);
    put_lines(dice, &tape, below(dice, 6), chance(dice, 50) ? 3 : 20);
    put_case(out, number, (uint32_t)(seed / 2 / NUMBERS % (both_lines() + 3)));
}

/* Texts of few bytes: the lines that they have differ, and so do their ends. */
static const char *const pieces[] = {
    "", "\n", "\n\n", "\n\n\n", "A", "AB", "A\n", "A\n\n", "\nA", "\nA\n", "A\nB", "A\nB\n",
    "A\n\nB", "\n\nA\n\n", "\r\n", "\r", "100103EC\nF000000010\n", "100103EC\nF000000010",
    "40g\n\nF1000000000F\n", "F1000000000F"
};

enum { PIECES = sizeof pieces / sizeof pieces[0] };

/* Puts one of the texts of few bytes. */
static void put_piece(struct text *text, uint32_t which)
{
    text_bytes(text, (const uint8_t *)pieces[which], strlen(pieces[which]));
}

/* Each sheet of few bytes with each tape of few bytes, and each place in them. */
void line_odd(struct dice *dice, uint64_t seed, struct text *out)
{
    uint32_t place;

    start_texts();
    put_piece(&sheet, (uint32_t)(seed % PIECES));
    put_piece(&tape, (uint32_t)(seed / PIECES % PIECES));
    place = (uint32_t)(seed / PIECES / PIECES % (both_lines() + 3));
    put_case(out, any_number(dice), place);
}

/*
 * A place near the last line of the sheet or of the tape, or far past both, also one whose low
 * bits are those of a line.
 */
static uint32_t far_place(struct dice *dice, uint32_t way)
{
    static const uint32_t over[] = {256, 65536, 16777216, 0x80000000u};
    uint32_t line = between(dice, 0, both_lines() + 1);

    if (way < 2) {
        return line_count(&sheet) + (way == 0 ? 0 : between(dice, 1, 2));
    }
    if (way < 4) {
        return both_lines() + (way == 2 ? 0 : between(dice, 1, 2));
    }
    if (way == 4) {
        return UINT32_MAX - (chance(dice, 70) ? 0 : line);
    }
    return way == 5 ? line : over[below(dice, 4)] + line;
}

/* Many short lines, around 256 of them in one text or in both, or a few. */
void line_far(struct dice *dice, uint64_t seed, struct text *out)
{
    static const uint16_t many[] = {254, 255, 256, 257, 300, 511, 512, 513};

    start_texts();
    put_lines(dice, &sheet, seed / 8 % 3 == 0 ? below(dice, 5) : many[below(dice, 8)], 2);
    put_lines(dice, &tape, seed / 8 % 3 == 1 ? below(dice, 5) : many[below(dice, 8)], 2);
    put_case(out, any_number(dice), far_place(dice, (uint32_t)(seed % 8)));
}

/* Puts bytes up to a size: one long line, only 0A's, or lines of any lengths. */
static void put_long(struct dice *dice, struct text *text, uint32_t size)
{
    uint32_t way = below(dice, 3), each = chance(dice, 50) ? 2 : 10 + below(dice, 5000);

    while (text->length < size) {
        text_byte(text, way == 1 || (way == 2 && below(dice, each) == 0) ? 0x0A : '0');
    }
}

/* A size of a text: that of the form's limit or near it, or that of a long line. */
static uint32_t any_size(struct dice *dice, int greatest)
{
    static const uint32_t great[] = {98304, 98303, 98302, 65536, 65537, 16384, 16385, 0};
    static const uint32_t small[] = {0, 1, 255, 256, 257, 1023, 4096, 5000};

    return greatest ? great[below(dice, 8)] : small[below(dice, 8)];
}

/* Long lines; in one of sixteen cases the texts go up to the form's limit. */
void line_size(struct dice *dice, uint64_t seed, struct text *out)
{
    int greatest = seed % 16 == 0;

    start_texts();
    put_long(dice, &sheet, any_size(dice, greatest));
    put_long(dice, &tape, any_size(dice, greatest));
    put_case(out, any_number(dice), far_place(dice, below(dice, 8)));
}

/* Parts a whole input into the two texts; what the day program answers of it comes back. */
static struct answer answer_of(const struct text *input)
{
    static struct periodic periodic[PERIODIC_MOST];
    static struct trigger trigger[TRIGGERS_MOST];
    static struct sheet read;
    static struct tape taken;
    struct lent lent = {periodic, PERIODIC_MOST, trigger, TRIGGERS_MOST};
    struct part part;
    struct answer found = test_sheet(input->bytes, input->length, &lent, &read, &part);
    size_t rest = input->length - part.length;

    text_bytes(&sheet, input->bytes, part.length);
    text_bytes(&tape, input->bytes + part.length, rest);
    if (found.number != OK) {
        return found;
    }
    return read_tape(tape.bytes, rest, part.lines + 1, read.role_count, &taken);
}

/* A sheet and a tape with faults, and the day program's own answer of them. */
void line_day(struct dice *dice, uint64_t seed, struct text *out)
{
    static maker *const makers[] = {
        sheet_frame, sheet_wrong, sheet_faults, day_frame, day_wrong, day_faults
    };
    static struct text input;
    struct answer found;

    start_texts();
    text_clear(&input);
    makers[seed % 6](dice, seed / 6, &input);
    found = answer_of(&input);
    put_case(out, (uint8_t)found.number, found.place);
}
