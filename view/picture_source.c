/* The input that the day was run from: how many lines and how many roles it has. */
#include "inputs.h"
#include "picture.h"

#include <stdio.h>

/* How many lines a text has. */
static unsigned long lines_of(struct text text)
{
    unsigned long lines = 0;
    struct line line;

    while (take_line(&text, &line)) {
        lines++;
    }
    return lines;
}

/* Reads the input, and takes its name and its sum; 0, with one line said, where that fails. */
int read_source(struct source *source, char **words)
{
    uint8_t bytes[KEPT_MOST];
    struct text text;

    text.bytes = bytes;
    if (!read_input(words[0], bytes, &text.length)) {
        fprintf(stderr, "box: picture: the input could not be read\n");
        return 0;
    }
    source->name = words[1];
    source->sum = words[2];
    source->lines = lines_of(text);
    source->roles = roles_of(text);
    if (source->roles == 0) {
        fprintf(stderr, "box: picture: the input does not begin with the header of a sheet\n");
        return 0;
    }
    return 1;
}
