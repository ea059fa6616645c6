/* Characters of UTF-8, one after another. */
#include "characters.h"

/* How many bytes a character has, by its first; 0 where none begins so. */
static size_t bytes_of(unsigned char first)
{
    if (first < 0x80) {
        return 1;
    }
    if (first >= 0xC2 && first < 0xE0) {
        return 2;
    }
    if (first >= 0xE0 && first < 0xF0) {
        return 3;
    }
    return first >= 0xF0 && first < 0xF5 ? 4 : 0;
}

/* Whether the length is right: no shorter form would do, and it is no half of a pair. */
static int right_length(uint32_t number, size_t length)
{
    static const uint32_t least[] = {0, 0, 0x80, 0x800, 0x10000};

    return number >= least[length] && number <= 0x10FFFF && !(number >= 0xD800 && number < 0xE000);
}

/*
 * How many bytes the character has that begins here, and its number; 0 where there is none. A text
 * ends with a zero byte, which is a character like any other and goes on in none.
 */
size_t character_at(const char *text, uint32_t *number)
{
    static const unsigned char kept[] = {0, 0x7F, 0x1F, 0x0F, 0x07};
    size_t i, length = bytes_of((unsigned char)text[0]);

    *number = (unsigned char)text[0] & kept[length];
    for (i = 1; i < length; i++) {
        if (((unsigned char)text[i] & 0xC0) != 0x80) {
            return 0;
        }
        *number = 64 * *number + ((unsigned char)text[i] & 0x3F);
    }
    return right_length(*number, length) ? length : 0;
}

/*
 * Whether the character can be seen, or is a blank as others are: it is no control, ends no line,
 * does not turn the direction of writing, is not without a width or a blank of another width, so
 * that two names would look the same, and may stand in a picture's file.
 */
int printable(uint32_t number)
{
    static const struct {
        uint32_t from, to;
    } barred[] = {{0, 0x1F},         {0x7F, 0x9F},      {0xAD, 0xAD},      {0x61C, 0x61C},
                  {0x115F, 0x1160},  {0x1680, 0x1680},  {0x180B, 0x180F},  {0x2000, 0x200F},
                  {0x2028, 0x202F},  {0x205F, 0x206F},  {0x2800, 0x2800},  {0x3000, 0x3000},
                  {0x3164, 0x3164},  {0xFEFF, 0xFEFF},  {0xFFA0, 0xFFA0},  {0xFFF0, 0xFFFB},
                  {0xFFFE, 0xFFFF},  {0xE0000, 0xE0FFF}};
    size_t i;

    for (i = 0; i < sizeof barred / sizeof barred[0]; i++) {
        if (number >= barred[i].from && number <= barred[i].to) {
            return 0;
        }
    }
    return 1;
}
