/* Inputs: a file that the proved programs read, all of standard input, and what a header says. */
#include "inputs.h"

#include "names.h"

#include <stdlib.h>

/* Reads a file, up to one byte more than may pass; 0 when it cannot be read. */
int read_input(const char *name, uint8_t *bytes, size_t *length)
{
    FILE *file = fopen(name, "rb");
    int bad;

    if (file == NULL) {
        return 0;
    }
    *length = fread(bytes, 1, KEPT_MOST, file);
    bad = ferror(file);
    return fclose(file) == 0 && !bad;
}

/* Reads all of standard input and puts a 0 byte behind it; NULL when it cannot be read. */
uint8_t *read_all(size_t *length)
{
    size_t room = 1 << 16, taken;
    uint8_t *bytes = malloc(room), *more;

    *length = 0;
    while (bytes != NULL) {
        taken = fread(bytes + *length, 1, room - 1 - *length, stdin);
        *length += taken;
        if (taken == 0) {
            break;
        }
        if (*length == room - 1) {
            room *= 2;
            more = realloc(bytes, room);
            if (more == NULL) {
                free(bytes);
            }
            bytes = more;
        }
    }
    if (bytes == NULL || ferror(stdin)) {
        free(bytes);
        return NULL;
    }
    bytes[*length] = 0;
    return bytes;
}

/* How many roles a sheet has, by its first line; 0 where that is no header. */
unsigned roles_of(struct text text)
{
    struct line line;
    struct frame frame;

    if (!take_line(&text, &line) || !frame_of(&line, &frame) || frame.length != 4
        || frame.bytes[0] != HEADER || frame.bytes[2] > ROLES_MOST) {
        return 0;
    }
    return frame.bytes[2];
}
