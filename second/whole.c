/* Whole inputs, a sheet and what follows it: what the programs of a day and of a sheet share. */
#include "second.h"

#include <stdio.h>

/*
 * Takes all of standard input, for which there are INPUT_MOST + 1 bytes; those past them are
 * dropped, as the length then is over the limit already.
 */
size_t take_input(uint8_t *input)
{
    size_t length = 0;
    int byte;

    while ((byte = getchar()) != EOF) {
        if (length <= INPUT_MOST) {
            input[length] = (uint8_t)byte;
            length++;
        }
    }
    return length;
}

/* A refusal prints only E0, number 1, place 4, column 4 and check. */
void put_refusal(struct text *out, struct answer refusal)
{
    uint8_t bytes[10];

    bytes[0] = 0xE0;
    bytes[1] = (uint8_t)refusal.number;
    put_number(bytes + 2, refusal.place, 4);
    put_number(bytes + 6, refusal.column, 4);
    text_frame(out, bytes, sizeof bytes);
}

/* What of an input is sheet: up to and with the first line beginning F0, or all. */
static struct part sheet_part(const uint8_t *input, size_t length)
{
    struct cursor cursor = cursor_at(input, length, 1);
    struct line line;
    struct part part;

    while (next_line(&cursor, &line)) {
        if (line.length >= 2 && line.bytes[0] == 'F' && line.bytes[1] == '0') {
            break;
        }
    }
    part.length = cursor.at;
    part.lines = cursor.line - 1;
    return part;
}

/* LENGTH of the whole input, then the whole test of its sheet, LOOP included. */
struct answer test_sheet(const uint8_t *input, size_t length, const struct lent *lent,
                         struct sheet *sheet, struct part *part)
{
    if (length > INPUT_MOST) {
        return answer(LENGTH, 0);
    }
    *part = sheet_part(input, length);
    return read_sheet(input, part->length, lent, sheet);
}
