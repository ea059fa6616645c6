/*
 * The names before the lanes, with the numbers of their roles. One that is too long for a line goes
 * over two where the lanes are high enough, and is cut only then; the legend has it all.
 */
#include "characters.h"
#include "picture.h"

#include <stdio.h>
#include <string.h>

enum {
    NAME_WIDE = LEFT - MARGIN - 200,
    NAME_LEAST = 210,
    NUMBER_BYTES = 32,
    TEXT_BYTES = NAME_BYTES + NUMBER_BYTES
};

/* How the names stand: the height of their letters, and whether they may go over two lines. */
struct letters {
    long size;
    int two;
};

/* The number of a lane's role, which stands after its name or alone. */
static void number_text(char *text, const struct board *board, size_t which)
{
    snprintf(text, NUMBER_BYTES, board->named ? "(%u)" : "role %u", board->lane[which].role);
}

/* How many bytes of a name fill one line: whole words where one fits, else as many characters. */
static size_t first_line(const char *name, long size)
{
    char text[TEXT_BYTES];
    size_t end = 0, words = 0, length;
    uint32_t number;

    for (;;) {
        length = character_at(name + end, &number);
        memcpy(text, name, end);
        text[end] = 0;
        if (text_wide(text, size) > NAME_WIDE) {
            break;
        }
        if (number == 0 || length == 0) {
            return end;
        }
        words = number == ' ' ? end : words;
        end += length;
    }
    if (words > 0) {
        return words;
    }
    do {
        end--;
    } while (end > 0 && ((unsigned char)name[end] & 0xC0) == 0x80);
    return end;
}

/* The two lines of a name with its number; the first is empty where one line has room for all. */
static void break_name(char *first, char *second, const struct board *board, size_t which,
                       const struct letters *letters)
{
    const char *name = board->lane[which].name;
    char number[NUMBER_BYTES];
    size_t end;

    number_text(number, board, which);
    first[0] = 0;
    snprintf(second, TEXT_BYTES, "%s%s", name, board->named ? " " : "");
    if (letters->two
        && text_wide(second, letters->size) + text_wide(number, letters->size) > NAME_WIDE) {
        end = first_line(name, letters->size);
        memcpy(first, name, end);
        first[end] = 0;
        end += name[end] == ' ';
        snprintf(second, TEXT_BYTES, "%s%s", name + end, name[end] == 0 ? "" : " ");
    }
}

/* Whether all names fit as they stand. */
static int all_fit(const struct board *board, const struct letters *letters)
{
    char first[TEXT_BYTES], second[TEXT_BYTES], number[NUMBER_BYTES];
    size_t i;

    for (i = 0; i < board->count; i++) {
        break_name(first, second, board, i, letters);
        number_text(number, board, i);
        if (text_wide(second, letters->size) + text_wide(number, letters->size) > NAME_WIDE) {
            return 0;
        }
    }
    return 1;
}

/* Makes the letters smaller until all names fit, or until they are the least. */
static void make_fit(const struct board *board, struct letters *letters)
{
    while (letters->size > NAME_LEAST && !all_fit(board, letters)) {
        letters->size -= 10;
    }
}

/* How the names stand: on one line where all fit so, else on two where lanes are high enough. */
static struct letters letters_of(const struct board *board, const struct plan *plan)
{
    long most = plan->text * 12 / 10;
    struct letters one = {0, 0}, two = {0, 1};

    one.size = most < plan->lane * 9 / 10 ? most : plan->lane * 9 / 10;
    make_fit(board, &one);
    two.size = most < plan->lane * 4 / 10 ? most : plan->lane * 4 / 10;
    if (all_fit(board, &one) || two.size < NAME_LEAST) {
        return one;
    }
    make_fit(board, &two);
    return two;
}

/* Shortens a text that ends with a blank so that it fits, with three dots at its end. */
static void shorten(char *text, long size, long wide)
{
    size_t end = 0, length;
    uint32_t number;
    char kept;

    if (text_wide(text, size) <= wide) {
        return;
    }
    for (;;) {
        length = character_at(text + end, &number);
        kept = text[end + length];
        text[end + length] = 0;
        if (text_wide(text, size) + size * 3 / 2 > wide) {
            break;
        }
        text[end + length] = kept;
        end += length;
    }
    strcpy(text + end, "\xE2\x80\xA6 ");
}

/* Writes the name of a lane before it. */
static void write_name(const struct board *board, const struct plan *plan, size_t which, long top,
                       const struct letters *letters)
{
    char first[TEXT_BYTES], second[TEXT_BYTES + NUMBER_BYTES], number[NUMBER_BYTES];
    long size = letters->size, y = top + plan->lane * 55 / 100 + size * 36 / 100;

    break_name(first, second, board, which, letters);
    number_text(number, board, which);
    shorten(second, size, NAME_WIDE - text_wide(number, size));
    strcat(second, number);
    if (first[0] != 0) {
        write_text(LEFT - 200, y - size * 6 / 10, size, AT_END, first);
        y += size * 6 / 10;
    }
    write_text(LEFT - 200, y, size, AT_END, second);
}

/* Writes the names of all lanes before them, the first of which is at "top". */
void write_lane_names(const struct board *board, const struct plan *plan, long top)
{
    struct letters letters = letters_of(board, plan);
    size_t i;

    for (i = 0; i < board->count; i++) {
        write_name(board, plan, i, top + (long)i * plan->lane, &letters);
    }
}
