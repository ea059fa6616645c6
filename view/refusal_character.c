/* A character of a line that is no digit, in words, and what may have brought it there. */
#include "refusal.h"

#include "characters.h"

#include <string.h>

enum { TAB = 0x09, RETURN = 0x0D, BLANK = 0x20, DELETE = 0x7F };

static const char only_digits[] = "; a line has only the digits 0 to 9 and A to F";

/* Whether these bytes stand here. */
static int stands(const struct line *line, size_t at, const char *bytes)
{
    size_t length = strlen(bytes);

    return line->length - at >= length && memcmp(line->bytes + at, bytes, length) == 0;
}

/* Whether nothing but blanks, tabs and returns stands from here to the end of the line. */
static int blank_from(const struct line *line, size_t at)
{
    while (at < line->length && memchr("\t\r ", line->bytes[at], 3) != NULL) {
        at++;
    }
    return at == line->length;
}

/* A letter, and what may be meant by it. */
static void say_letter(char letter)
{
    printf(letter >= 'a' ? "the lower-case letter %c" : "the letter %c", letter);
    if (letter == 'O' || letter == 'o') {
        printf(", where a zero (0) may be meant");
    } else if (letter == 'I' || letter == 'l') {
        printf(", where a one (1) may be meant");
    } else if (letter >= 'a' && letter <= 'f') {
        printf("; it must be upper case, %c", letter - 'a' + 'A');
    } else {
        printf("%s", only_digits);
    }
}

/* A blank or a tab, within the line or at its end. */
static void say_blank(const struct line *line, size_t at)
{
    printf(line->bytes[at] == TAB ? "a tab" : "a blank");
    if (!blank_from(line, at)) {
        printf("%s", only_digits);
    } else {
        printf(at > 0 ? " at the end of the line" : ", and the line has no digits");
    }
}

/* A return: that of a line end of Windows, with how many lines have such a one, or another. */
static void say_return(const struct refusal *refusal)
{
    unsigned long lines = 0, same = 0;
    struct text text = refusal->input;
    struct line line;

    if (refusal->column != refusal->line.length || !refusal->line.ended) {
        printf("0D, a carriage return; a line ends with 0A alone");
        return;
    }
    while (take_line(&text, &line)) {
        lines += line.ended ? 1 : 0;
        same += line.ended && line.length > 0 && line.bytes[line.length - 1] == RETURN ? 1 : 0;
    }
    printf("0D: the line end is that of Windows (0D 0A), ");
    if (same == 1) {
        printf("in this line only");
    } else if (same == lines) {
        printf("in all lines");
    } else {
        printf("in %lu of %lu lines", same, lines);
    }
    printf("; it must be that of Unix (0A alone)");
}

/* A plain character of any sort, which is no digit. */
static void say_plain(const struct refusal *refusal, size_t at)
{
    uint8_t byte = refusal->line.bytes[at];

    printf("column %lu is ", (unsigned long)at + 1);
    if ((byte >= 'A' && byte <= 'Z') || (byte >= 'a' && byte <= 'z')) {
        say_letter((char)byte);
    } else if (byte == RETURN) {
        say_return(refusal);
    } else if (byte == TAB || byte == BLANK) {
        say_blank(&refusal->line, at);
    } else if (byte < BLANK || byte == DELETE) {
        printf("the control character %02X%s", (unsigned)byte, only_digits);
    } else {
        printf(byte == '\'' ? "the character \"%c\"%s" : "the character '%c'%s", byte, only_digits);
    }
}

/* A character of several bytes, or a byte that belongs to none; how many bytes it has. */
static size_t say_far(const struct line *line, size_t at)
{
    size_t i, length, left = line->length - at;
    char text[5] = {0};
    uint32_t number;

    memcpy(text, line->bytes + at, left < 4 ? left : 4);
    length = character_at(text, &number);
    if (length < 2) {
        printf("column %lu is the byte %02X%s", (unsigned long)at + 1, (unsigned)line->bytes[at],
               only_digits);
        return 1;
    }
    printf("columns %lu to %lu are %s, U+%04lX (", (unsigned long)at + 1,
           (unsigned long)(at + length), number == 0xA0 ? "a no-break blank" : "one character",
           (unsigned long)number);
    for (i = 0; i < length; i++) {
        printf(i == 0 ? "%02X" : " %02X", (unsigned)line->bytes[at + i]);
    }
    printf(")%s", only_digits);
    return length;
}

/* What some editors put before the text; how many bytes it has, 0 where it is not there. */
static size_t say_encoding(const struct refusal *refusal, size_t at)
{
    const struct line *line = &refusal->line;

    if (stands(line, at, "\xEF\xBB\xBF")) {
        printf("columns %lu to %lu are a byte-order mark (EF BB BF), which some editors put before"
               " the text; save the file without it",
               (unsigned long)at + 1, (unsigned long)at + 3);
        return 3;
    }
    if (refusal->place == 1 && at == 0
        && (stands(line, 0, "\xFF\xFE") || stands(line, 0, "\xFE\xFF"))) {
        printf("columns 1 and 2 are the mark of a file in UTF-16 (%02X %02X); save it as plain"
               " text", (unsigned)line->bytes[0], (unsigned)line->bytes[1]);
        return 2;
    }
    return 0;
}

/* The character that begins at a byte, from 0, of the refused line; how many bytes it has. */
size_t say_character(const struct refusal *refusal, size_t at)
{
    size_t length = say_encoding(refusal, at);

    if (length > 0) {
        return length;
    }
    if (refusal->line.bytes[at] > DELETE) {
        return say_far(&refusal->line, at);
    }
    say_plain(refusal, at);
    return 1;
}
