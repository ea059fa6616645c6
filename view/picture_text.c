/* Letters. */
#include "characters.h"
#include "picture.h"

#include <stdio.h>
#include <string.h>

/* How wide a character is at most, in hundredths of the letters' height. */
static long character_wide(uint32_t number)
{
    if (number >= 0x250) {
        return 105;
    }
    if (number < 0x80 && strchr("%@MWmw&<>+~^#", (int)number) != NULL) {
        return 100;
    }
    if (number < 0x80 && strchr("ijlI|!.,:;' ", (int)number) != NULL) {
        return 36;
    }
    return number >= 0x80 || (number >= 'A' && number <= 'Z') ? 80 : 64;
}

/* How wide a text is at most. */
long text_wide(const char *text, long size)
{
    uint32_t number;
    size_t length = character_at(text, &number);
    long wide = 0;

    while (number != 0 && length != 0) {
        wide += character_wide(number);
        text += length;
        length = character_at(text, &number);
    }
    return wide * size / 100;
}

/* How wide a text is at most in bold letters. */
long bold_wide(const char *text, long size)
{
    return text_wide(text, size) * 112 / 100;
}

/* Writes a character so that it stands for itself. */
static void write_character(char character)
{
    if (character == '&') {
        fputs("&amp;", stdout);
    } else if (character == '<') {
        fputs("&lt;", stdout);
    } else if (character == '>') {
        fputs("&gt;", stdout);
    } else if (character == '"') {
        fputs("&quot;", stdout);
    } else if (character == '\'') {
        fputs("&#39;", stdout);
    } else {
        putchar(character);
    }
}

/* Writes a text at its foot line; "how" has what further attributes it has. */
void write_text(long x, long y, long size, const char *how, const char *text)
{
    printf("<text x=\"%ld\" y=\"%ld\" font-size=\"%ld\"%s>", x, y, size, how);
    for (; *text != 0; text++) {
        write_character(*text);
    }
    printf("</text>\n");
}

/* Hours and minutes of the day. */
void clock_text(char *text, size_t size, size_t minute)
{
    snprintf(text, size, "%lu:%02lu", (unsigned long)(minute % DAY_MINUTES / 60),
             (unsigned long)(minute % 60));
}

/* Some minutes on end, as '595 to 614', or one; "to" is the minute after the last. */
void stretch_text(char *text, size_t size, size_t from, size_t to)
{
    if (to - from == 1) {
        snprintf(text, size, "%lu", (unsigned long)from);
    } else {
        snprintf(text, size, "%lu to %lu", (unsigned long)from, (unsigned long)to - 1);
    }
}
