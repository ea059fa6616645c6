/* A change made: the whole file with it goes to standard output. */
#include "mutants.h"

#include <stdlib.h>
#include <string.h>

/* Where a line and a column stand in a text; its length when it has no such place. */
static size_t offset_of(const struct text *text, uint64_t line, uint64_t column)
{
    size_t i = 0;

    while (line > 1 && i < text->length) {
        line -= text->bytes[i] == '\n';
        i++;
    }
    return line == 1 && column >= 1 && column <= text->length - i ? i + (size_t)column - 1 : text->length;
}

/* Whether the bytes from `at` on are those that the list names. */
static int is_there(const struct text *text, size_t at, uint64_t length, struct part old)
{
    struct text folded = {NULL, 0, 0};
    struct part bytes;
    int same;

    if (length > text->length - at) {
        return 0;
    }
    bytes.bytes = text->bytes + at;
    bytes.length = (size_t)length;
    text_folded(&folded, bytes);
    same = part_is(old, folded.bytes);
    text_free(&folded);
    return same;
}

/* Writes bytes to standard output. */
static void put_out(const char *bytes, size_t length)
{
    if (length > 0 && fwrite(bytes, 1, length, stdout) != length) {
        stop("apply", "what was changed cannot be written");
    }
}

/* Opens the file that a line of the list names. */
static void open_named(struct part path, struct text *text)
{
    struct text name = {NULL, 0, 0};
    FILE *file;

    text_part(&name, path);
    file = fopen(name.bytes, "rb");
    if (file == NULL) {
        stop(name.bytes, "it cannot be opened");
    }
    read_all(file, name.bytes, text);
    fclose(file);
    text_free(&name);
}

/* Makes the change of a line of the list. */
int command_apply(const char *words)
{
    struct part line = part_of(words), new_text = field_of(line, 8);
    struct text text = {NULL, 0, 0};
    uint64_t row = 0, column = 0, length = 0;
    size_t at;

    if (!decimal(field_of(line, 2), &row) || !decimal(field_of(line, 3), &column) || !decimal(field_of(line, 4), &length)) {
        stop("apply", "this is no line of the list");
    }
    open_named(field_of(line, 1), &text);
    at = offset_of(&text, row, column);
    if (!is_there(&text, at, length, field_of(line, 7))) {
        stop("apply", "what is to be changed does not stand there");
    }
    put_out(text.bytes, at);
    put_out(new_text.bytes, new_text.length);
    put_out(text.bytes + at + length, text.length - at - (size_t)length);
    text_free(&text);
    return 0;
}
