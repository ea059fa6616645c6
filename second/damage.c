/* Changes of a text: bytes and lines changed, dropped, doubled, swapped, cut off. */
#include "gen.h"

#include <stdio.h>
#include <stdlib.h>
#include <string.h>

/* How many lines a text has, one without 0A at the end counted too. */
uint32_t line_count(const struct text *text)
{
    return count_lines(text->bytes, text->length);
}

/* Where a line, from 0, starts; past the last it is the end of the text. */
size_t line_start(const struct text *text, uint32_t line)
{
    struct cursor cursor = cursor_at(text->bytes, text->length, 0);
    struct line taken;

    while (cursor.line < line && next_line(&cursor, &taken)) {
    }
    return cursor.at;
}

/* Puts other bytes in place of some bytes of a text. */
void replace(struct text *text, size_t at, size_t drop, const uint8_t *bytes, size_t length)
{
    size_t rest;

    drop = at + drop > text->length ? text->length - at : drop;
    rest = text->length - at - drop;
    if (text->length - drop + length > TEXT_MOST) {
        fprintf(stderr, "second: a page is full\n");
        abort();
    }
    memmove(text->bytes + at + length, text->bytes + at + drop, rest);
    if (length > 0) {
        memmove(text->bytes + at, bytes, length);
    }
    text->length = at + length + rest;
}

/* Puts right the check of every line that is hexadecimal of an even count. */
void mend_checks(struct text *text)
{
    static struct frame frame;
    static struct text mended;
    struct cursor cursor = cursor_at(text->bytes, text->length, 1);
    struct line line;

    text_clear(&mended);
    while (next_line(&cursor, &line)) {
        if (frame_and_check(&line, 1, &frame).number != FRAME) {
            text_frame(&mended, frame.bytes, frame.length - 1);
            continue;
        }
        text_bytes(&mended, line.bytes, line.length);
        if (line.ended) {
            text_byte(&mended, 0x0A);
        }
    }
    replace(text, 0, text->length, mended.bytes, mended.length);
}

/* Copies the bytes of one line, its 0A included. */
static size_t copy_line(const struct text *text, uint32_t line, uint8_t *to, size_t most)
{
    size_t start = line_start(text, line), length = line_start(text, line + 1) - start;

    length = length > most ? most : length;
    memcpy(to, text->bytes + start, length);
    return length;
}

/* Drops, doubles or swaps a line, puts one elsewhere, or puts an empty one in. */
static void damage_line(struct dice *dice, struct text *text)
{
    static uint8_t one[FRAME_MOST], other[FRAME_MOST];
    uint32_t way = below(dice, 5), lines = line_count(text);
    uint32_t a = below(dice, lines), b = below(dice, lines);
    size_t length = copy_line(text, a, one, sizeof one);
    size_t length_b = copy_line(text, b, other, sizeof other);

    if (way == 0) {
        replace(text, line_start(text, a), length, NULL, 0);
    } else if (way == 1) {
        replace(text, line_start(text, a), 0, one, length);
    } else if (way == 2) {
        replace(text, line_start(text, a), length, other, length_b);
        replace(text, line_start(text, b), length_b, one, length);
    } else if (way == 3) {
        replace(text, line_start(text, b), 0, one, length);
    } else if (chance(dice, 30)) {
        replace(text, line_start(text, a), 0, (const uint8_t *)"\n", 1);
    }
}

/* A byte that makes trouble more often than not. */
static uint8_t any_character(struct dice *dice)
{
    uint32_t way = below(dice, 6);

    if (way < 3) {
        return (uint8_t)"0123456789ABCDEF"[below(dice, 16)];
    }
    if (way == 3) {
        return (uint8_t)"\n\r \tabcdefGgXx@/:`"[below(dice, 18)];
    }
    return (uint8_t)below(dice, 256);
}

/* Changes, drops, doubles or swaps single characters, or cuts the text off. */
static void damage_character(struct dice *dice, struct text *text)
{
    uint32_t way = below(dice, 12);
    size_t at = below(dice, (uint32_t)text->length);
    uint8_t character = any_character(dice);

    if (text->length == 0) {
        return;
    }
    if (way < 4) {
        text->bytes[at] = character;
    } else if (way < 6) {
        replace(text, at, 1, NULL, 0);
    } else if (way < 8) {
        replace(text, at, 0, text->bytes + at, 1);
    } else if (way < 10 && at + 1 < text->length) {
        character = text->bytes[at];
        text->bytes[at] = text->bytes[at + 1];
        text->bytes[at + 1] = character;
    } else if (way == 10) {
        text->length = at;
    } else {
        text->length--;
    }
}

/* A byte value that is often at the edge of a limit. */
static unsigned edge_byte(struct dice *dice)
{
    static const uint8_t edges[] = {
        0, 1, 2, 3, 4, 5, 6, 15, 16, 59, 60, 61, 63, 64, 65, 126, 127, 128, 129, 254, 255,
        0x10, 0x20, 0x30, 0x40, 0x50, 0xE0, 0xF0, 0xF1
    };

    return chance(dice, 60) ? edges[below(dice, sizeof edges)] : below(dice, 256);
}

/*
 * Changes, drops, doubles or puts in one byte of two digits, the line staying hexadecimal; or
 * damages a line.
 */
static void damage_bytes(struct dice *dice, struct text *text)
{
    uint32_t way = below(dice, 12), line = below(dice, line_count(text));
    size_t start = line_start(text, line), length = line_start(text, line + 1) - start;
    size_t at = start + 2 * below(dice, (uint32_t)(length / 2));
    unsigned value = edge_byte(dice);
    uint8_t pair[2];

    pair[0] = (uint8_t)"0123456789ABCDEF"[value / 16];
    pair[1] = (uint8_t)"0123456789ABCDEF"[value % 16];
    if (length < 3 || way > 9) {
        damage_line(dice, text);
    } else if (way < 6) {
        replace(text, at, 2, pair, 2);
    } else if (way < 8) {
        replace(text, at, 2, NULL, 0);
    } else if (way == 8) {
        replace(text, at, 0, text->bytes + at, 2);
    } else {
        replace(text, at, 0, pair, 2);
    }
}

/* So many changes of bytes or lines, the checks put right after them. */
void damage_mended(struct dice *dice, struct text *text, uint32_t times)
{
    while (times > 0) {
        damage_bytes(dice, text);
        times--;
    }
    mend_checks(text);
}

/* One to four changes of any sort. */
void damage(struct dice *dice, struct text *text)
{
    uint32_t times = chance(dice, 60) ? 1 : between(dice, 1, 4);

    while (times > 0 && text->length > 0) {
        if (chance(dice, 30)) {
            damage_line(dice, text);
        } else {
            damage_character(dice, text);
        }
        times--;
    }
}
