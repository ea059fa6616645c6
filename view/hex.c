/* Lines, the frames that they stand for, and lines shown safely. */
#include "hex.h"

#include <string.h>

/* Takes the first line off a text; 0 when nothing is left of it. */
int take_line(struct text *text, struct line *line)
{
    const uint8_t *end;
    size_t taken;

    if (text->length == 0) {
        return 0;
    }
    end = memchr(text->bytes, 0x0A, text->length);
    line->bytes = text->bytes;
    line->ended = end != NULL;
    line->length = end != NULL ? (size_t)(end - text->bytes) : text->length;
    taken = line->length + (line->ended ? 1 : 0);
    text->bytes += taken;
    text->length -= taken;
    return 1;
}

/* Whether a line begins with these digits. */
int begins(const struct line *line, const char *digits)
{
    size_t length = strlen(digits);

    return line->length >= length && memcmp(line->bytes, digits, length) == 0;
}

/* The value of an upper-case hexadecimal digit; 16 for any other byte. */
static unsigned value_of(uint8_t byte)
{
    static const char digits[] = "0123456789ABCDEF";
    const char *found = byte == 0 ? NULL : strchr(digits, byte);

    return found == NULL ? 16 : (unsigned)(found - digits);
}

/* The frame of a line; 0 when the line stands for none, or for one longer than any that passes. */
int frame_of(const struct line *line, struct frame *frame)
{
    unsigned high, low;
    size_t i;

    frame->length = line->length / 2;
    if (line->length == 0 || line->length % 2 != 0 || frame->length > FRAME_MOST) {
        return 0;
    }
    for (i = 0; i < frame->length; i++) {
        high = value_of(line->bytes[2 * i]);
        low = value_of(line->bytes[2 * i + 1]);
        if (high > 15 || low > 15) {
            return 0;
        }
        frame->bytes[i] = (uint8_t)(16 * high + low);
    }
    return 1;
}

/* The sum of the first bytes of a frame, so many of them, modulo 256; of a good frame it is 0. */
unsigned sum_of(const struct frame *frame, size_t bytes)
{
    unsigned sum = 0;
    size_t i;

    for (i = 0; i < bytes; i++) {
        sum += frame->bytes[i];
    }
    return sum % 256;
}

/* The number of so many bytes of a frame, high byte first. */
uint32_t number_at(const struct frame *frame, size_t at, size_t bytes)
{
    uint32_t number = 0;

    for (; bytes > 0; bytes--, at++) {
        number = number << 8 | frame->bytes[at];
    }
    return number;
}

/* A byte of a line of digits, by its number from 0; 0 where there is none. The line may be long. */
unsigned byte_in(const struct line *line, size_t at)
{
    unsigned high, low;

    if (line->length < 2 || at > (line->length - 2) / 2) {
        return 0;
    }
    high = value_of(line->bytes[2 * at]);
    low = value_of(line->bytes[2 * at + 1]);
    return high > 15 || low > 15 ? 0 : 16 * high + low;
}

/* The number of so many bytes of a line of digits, high byte first. */
uint32_t number_in(const struct line *line, size_t at, size_t bytes)
{
    uint32_t number = 0;

    for (; bytes > 0; bytes--, at++) {
        number = number << 8 | byte_in(line, at);
    }
    return number;
}

/*
 * Shows a line, going on from 'line 4': how long it is, and between quotes its characters, or the
 * first of many. What is no ASCII character that prints, and the backslash, is shown as \xNN.
 */
void show_line(FILE *out, const struct line *line)
{
    size_t i, shown = line->length < SHOWN_MOST ? line->length : SHOWN_MOST;

    fprintf(out, " has %lu character%s", (unsigned long)line->length, line->length == 1 ? "" : "s");
    fputs(line->ended ? "" : " and no line end", out);
    fputs(shown < line->length ? "; it begins '" : ": '", out);
    for (i = 0; i < shown; i++) {
        if (line->bytes[i] >= 0x20 && line->bytes[i] <= 0x7E && line->bytes[i] != '\\') {
            fputc(line->bytes[i], out);
        } else {
            fprintf(out, "\\x%02X", (unsigned)line->bytes[i]);
        }
    }
    fputc('\'', out);
}
