/* Inputs of the command sheet: sheets in any order and what may follow them. */
#include "gen.h"

enum { FEW_RESTS = 4, RESTS = 10 };

static struct book book; /* the book in the making */

/* Puts so many bytes of any values. */
static void put_any_bytes(struct dice *dice, struct text *out, uint32_t count)
{
    for (; count > 0; count--) {
        text_byte(out, chance(dice, 10) ? 0x0A : below(dice, 256));
    }
}

/* Puts bytes of any values until the input has so many. */
static void put_up_to(struct dice *dice, struct text *out, uint32_t size)
{
    put_any_bytes(dice, out, size > out->length ? size - (uint32_t)out->length : 0);
}

/* Puts a tape with damage. */
static void put_damaged_tape(struct dice *dice, struct text *out)
{
    static struct text tape;

    text_clear(&tape);
    put_tape(&tape, &book);
    damage(dice, &tape);
    text_bytes(out, tape.bytes, tape.length);
}

/*
 * Puts what follows the sheet, which is not judged: nothing, a tape, a tape whose last line has no
 * 0A, any bytes; or a damaged tape, another sheet, empty lines, digits, any bytes up to the limit
 * of the input and any bytes past it.
 */
static void put_rest(struct dice *dice, struct text *out, uint32_t way)
{
    if (way == 1 || way == 2) {
        put_tape(out, &book);
        out->length -= way - 1;
    } else if (way == 3) {
        put_any_bytes(dice, out, between(dice, 1, 300));
    } else if (way == 4) {
        put_damaged_tape(dice, out);
    } else if (way == 5) {
        put_mixed(dice, out, &book, 50);
        put_tape(out, &book);
    } else if (way == 6) {
        text_bytes(out, (const uint8_t *)"\n\n\r\n \n\n", between(dice, 1, 7));
    } else if (way == 7) {
        text_hex(out, UINT64_C(0xF0000000F0F14000), between(dice, 1, 16));
    } else if (way == 8) {
        put_up_to(dice, out, INPUT_MOST - below(dice, 3));
    } else if (way == 9) {
        put_up_to(dice, out, INPUT_MOST + 1 + (chance(dice, 70) ? below(dice, 3) : below(dice, 200000)));
    }
}

/* How often a periodic row comes next in a mixed sheet: never while there are triggers, or at times. */
static uint32_t any_mix(struct dice *dice)
{
    return chance(dice, 15) ? 0 : between(dice, 10, 90);
}

/* An accepted sheet, its rows mixed, with nothing, a tape or any bytes after it. */
void sheet_good(struct dice *dice, uint64_t seed, struct text *out)
{
    accepted_book(dice, &book);
    put_mixed(dice, out, &book, any_mix(dice));
    put_rest(dice, out, (uint32_t)(seed % FEW_RESTS));
}

/* An accepted sheet, all periodic rows before the triggers. */
void sheet_order(struct dice *dice, uint64_t seed, struct text *out)
{
    accepted_book(dice, &book);
    put_mixed(dice, out, &book, 100);
    put_rest(dice, out, (uint32_t)(seed % FEW_RESTS));
}

/* An accepted sheet near every limit. */
void sheet_dense(struct dice *dice, uint64_t seed, struct text *out)
{
    dense_book(dice, &book);
    put_mixed(dice, out, &book, any_mix(dice));
    put_rest(dice, out, (uint32_t)(seed % FEW_RESTS));
}

/* An accepted sheet with anything after it, up to the limit of the input and past it. */
void sheet_rest(struct dice *dice, uint64_t seed, struct text *out)
{
    good_book(dice, &book);
    put_mixed(dice, out, &book, any_mix(dice));
    put_rest(dice, out, (uint32_t)(seed % RESTS));
}

/* A cycle of 1 to 128 events, or its neighbour without a loop. */
void sheet_loop(struct dice *dice, uint64_t seed, struct text *out)
{
    loop_book(dice, &book, (uint32_t)(seed / 4 % 128) + 1, (uint32_t)(seed % 4));
    put_mixed(dice, out, &book, any_mix(dice));
    put_rest(dice, out, below(dice, FEW_RESTS));
}

/* A sheet of which some characters or lines are damaged. */
void sheet_damage(struct dice *dice, uint64_t seed, struct text *out)
{
    book_for_damage(dice, &book);
    put_mixed(dice, out, &book, any_mix(dice));
    damage(dice, out);
    put_rest(dice, out, (uint32_t)(seed % FEW_RESTS));
}

/* A sheet of which some bytes or lines are damaged and the checks put right. */
void sheet_mend(struct dice *dice, uint64_t seed, struct text *out)
{
    book_for_damage(dice, &book);
    put_mixed(dice, out, &book, any_mix(dice));
    damage_mended(dice, out, chance(dice, 60) ? 1 : between(dice, 1, 4));
    put_rest(dice, out, (uint32_t)(seed % FEW_RESTS));
}
