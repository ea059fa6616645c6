/* Bytes that grow, and parts of them. */
#include "mutants.h"

#include <stdlib.h>
#include <string.h>

/* Says in one line why nothing can be done, and ends. */
void stop(const char *what, const char *why)
{
    fprintf(stderr, "mutants: %s: %s\n", what, why);
    exit(1);
}

/* Doubles the room of an array whose things have this size. */
void *grown(void *items, size_t *room, size_t size)
{
    size_t more = *room == 0 ? 64 : 2 * *room;
    void *moved;

    if (more > SIZE_MAX / 2 / size) {
        stop("memory", "there is too much to hold");
    }
    moved = realloc(items, more * size);
    if (moved == NULL) {
        stop("memory", "there is none left");
    }
    *room = more;
    return moved;
}

/* Puts bytes at the end of a text. */
void text_put(struct text *text, const char *bytes, size_t length)
{
    while (text->room - text->length <= length) {
        text->bytes = grown(text->bytes, &text->room, 1);
    }
    if (length > 0) {
        memcpy(text->bytes + text->length, bytes, length);
    }
    text->length += length;
    text->bytes[text->length] = 0;
}

/* Puts words at the end of a text. */
void text_words(struct text *text, const char *words)
{
    text_put(text, words, strlen(words));
}

/* Puts a part at the end of a text. */
void text_part(struct text *text, struct part part)
{
    text_put(text, part.bytes, part.length);
}

/* Puts a part on one line: each run of blanks, ends of lines and control bytes is one blank, and none stands at the front or
   the end. */
void text_folded(struct text *text, struct part part)
{
    size_t i, before = text->length;
    int gap = 0;

    text_put(text, "", 0);
    for (i = 0; i < part.length; i++) {
        if ((unsigned char)part.bytes[i] <= ' ' || part.bytes[i] == 127) {
            gap = 1;
            continue;
        }
        if (gap && text->length > before) {
            text_put(text, " ", 1);
        }
        gap = 0;
        text_put(text, part.bytes + i, 1);
    }
}

/* Lets go of a text. */
void text_free(struct text *text)
{
    free(text->bytes);
    text->bytes = NULL;
    text->length = 0;
    text->room = 0;
}

/* Reads a file to its end. */
void read_all(FILE *file, const char *path, struct text *text)
{
    char buffer[4096];
    size_t got;

    text_put(text, "", 0);
    while ((got = fread(buffer, 1, sizeof buffer, file)) > 0) {
        if (text->length + got > INPUT_MOST) {
            stop(path, "it has more than 16 MiB");
        }
        text_put(text, buffer, got);
    }
    if (ferror(file)) {
        stop(path, "it cannot be read");
    }
}

/* Words as a part. */
struct part part_of(const char *words)
{
    struct part part;

    part.bytes = words;
    part.length = strlen(words);
    return part;
}

/* Whether two parts have the same bytes. */
int same_part(struct part a, struct part b)
{
    return a.length == b.length && (a.length == 0 || memcmp(a.bytes, b.bytes, a.length) == 0);
}

/* Whether a part has the bytes of these words. */
int part_is(struct part part, const char *words)
{
    return same_part(part, part_of(words));
}

/* Takes a decimal number of at most 18 digits; 0 when it is none. */
int decimal(struct part digits, uint64_t *value)
{
    size_t i;

    if (digits.length == 0 || digits.length > 18) {
        return 0;
    }
    *value = 0;
    for (i = 0; i < digits.length; i++) {
        if (digits.bytes[i] < '0' || digits.bytes[i] > '9') {
            return 0;
        }
        *value = 10 * *value + (uint64_t)(digits.bytes[i] - '0');
    }
    return 1;
}
