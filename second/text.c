/* Answers and pages of bytes. */
#include "second.h"

#include <stdio.h>
#include <stdlib.h>

/* An answer with its number, its place and its column. */
struct answer answer_at(unsigned number, uint32_t place, uint32_t column)
{
    struct answer made;

    made.number = number;
    made.place = place;
    made.column = column;
    return made;
}

/* An answer without a column. */
struct answer answer(unsigned number, uint32_t place)
{
    return answer_at(number, place, 0);
}

/* Makes the page empty. */
void text_clear(struct text *text)
{
    text->length = 0;
}

/* Puts one byte at the end of the page. */
void text_byte(struct text *text, unsigned byte)
{
    if (text->length >= TEXT_MOST) {
        fprintf(stderr, "second: a page is full\n");
        abort();
    }
    text->bytes[text->length] = (uint8_t)byte;
    text->length++;
}

/* Puts bytes as they stand at the end of the page. */
void text_bytes(struct text *text, const uint8_t *bytes, size_t length)
{
    size_t i;

    for (i = 0; i < length; i++) {
        text_byte(text, bytes[i]);
    }
}

/* Puts a number in upper-case hexadecimal of a fixed width, high digit first. */
void text_hex(struct text *text, uint64_t value, unsigned digits)
{
    while (digits > 0) {
        digits--;
        text_byte(text, (unsigned)"0123456789ABCDEF"[(value >> (4 * digits)) & 15]);
    }
}

/* Puts a frame as a line: its bytes, the check that makes their sum a multiple of 256, and 0A. */
void text_frame(struct text *text, const uint8_t *bytes, size_t length)
{
    unsigned sum = 0;
    size_t i;

    for (i = 0; i < length; i++) {
        sum += bytes[i];
        text_hex(text, bytes[i], 2);
    }
    text_hex(text, (256 - sum % 256) % 256, 2);
    text_byte(text, 0x0A);
}

/* Prints the page to standard output. */
void text_print(const struct text *text)
{
    if (fwrite(text->bytes, 1, text->length, stdout) != text->length) {
        fprintf(stderr, "second: cannot write\n");
        exit(2);
    }
}
