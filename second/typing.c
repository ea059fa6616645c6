/* Lines that are typed wrongly: characters and ends of lines, whatever the frame says. */
#include "gen.h"

enum { TYPINGS = 10 };

/* How many ways of typing a line wrongly there are. */
uint32_t typings(void)
{
    return TYPINGS;
}

/* A byte other than 0A that is no upper-case hexadecimal digit. */
static uint8_t bad_character(struct dice *dice)
{
    static const uint8_t near[] = "abcdefgG/:@`\r\t\v\f -.O\x7F\x80\xB0\xFF";
    uint32_t byte = chance(dice, 70) ? near[below(dice, sizeof near)] : below(dice, 256);

    if (byte == 0x0A || (byte >= '0' && byte <= '9') || (byte >= 'A' && byte <= 'F')) {
        return 'G';
    }
    return (uint8_t)byte;
}

/* A hexadecimal digit. */
static uint8_t any_digit(struct dice *dice)
{
    return (uint8_t)"0123456789ABCDEF"[below(dice, 16)];
}

/* A hexadecimal digit other than the one that stands there. */
static uint8_t other_digit(struct dice *dice, uint8_t digit)
{
    uint8_t found = any_digit(dice);

    while (found == digit) {
        found = any_digit(dice);
    }
    return found;
}

/* Makes a line empty, or puts an empty one before it or after it. */
static void empty_line(struct text *text, size_t start, size_t length, uint32_t which)
{
    if (which == 0) {
        replace(text, start, length, NULL, 0);
    } else {
        replace(text, which == 1 ? start : start + length, 0, (const uint8_t *)"\n", 1);
    }
}

/*
 * One character: it becomes a bad one, another digit, or goes. Or before it, which may be the 0A:
 * a bad one is put in, a digit is, the text ends, a 0A is put in.
 */
static void mistype_at(struct dice *dice, struct text *text, size_t at, uint32_t way)
{
    uint8_t digit = any_digit(dice), bad = bad_character(dice);

    if (way == 0) {
        text->bytes[at] = bad;
    } else if (way == 1) {
        text->bytes[at] = other_digit(dice, text->bytes[at]);
    } else if (way == 2) {
        replace(text, at, 1, NULL, 0);
    } else if (way == 3) {
        replace(text, at, 0, &bad, 1);
    } else if (way == 4) {
        replace(text, at, 0, &digit, 1);
    } else if (way == 5) {
        text->length = at;
    } else {
        replace(text, at, 0, (const uint8_t *)"\n", 1);
    }
}

/* The whole line: another of one byte, an empty one, or one that goes on with the next. */
static void mistype_whole(struct dice *dice, struct text *text, size_t start, size_t length,
                          uint32_t way, uint32_t column)
{
    uint8_t pair[2];

    pair[0] = any_digit(dice);
    pair[1] = any_digit(dice);
    if (way == 7) {
        replace(text, start, length, pair, sizeof pair);
    } else if (way == 8) {
        empty_line(text, start, length, column % 3);
    } else {
        replace(text, start + length, 1, NULL, 0);
    }
}

/*
 * Types a line, from 0, wrongly in one of the ways. The column, from 0, is taken among those that
 * the line has; where something is put in or cut off also at its end.
 */
void mistype(struct dice *dice, struct text *text, uint32_t line, uint32_t way, uint32_t column)
{
    size_t start = line_start(text, line), length = 0;

    way %= TYPINGS;
    while (start + length < text->length && text->bytes[start + length] != 0x0A) {
        length++;
    }
    if (way >= 7) {
        mistype_whole(dice, text, start, length, way, column);
    } else if (way >= 3) {
        mistype_at(dice, text, start + column % (length + 1), way);
    } else if (length > 0) {
        mistype_at(dice, text, start + column % length, way);
    }
}
