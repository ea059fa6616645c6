/* The kinds of frames: what they are called, how long their lines are, and whole lines of ends. */
#include "kinds.h"

#include "say.h"

enum {
    TRIGGER_LEAST = 16, /* digits of a trigger with one event and no condition, */
    TRIGGER_REST = 14   /* and without any */
};

/* What a frame of this kind is called; NULL when there is no such kind. */
const char *name_of_kind(unsigned kind)
{
    switch (kind) {
    case HEADER:
        return "a header";
    case PERIODIC:
        return "a periodic row";
    case TRIGGER:
        return "a trigger";
    case END:
        return "the end of a sheet";
    case REQUEST_FRAME:
        return "a request";
    case LAST_FRAME:
        return "the end of a tape";
    default:
        return NULL;
    }
}

/* A kind, as 'a trigger (30)'. */
void say_kind(unsigned kind)
{
    const char *name = name_of_kind(kind);

    printf("%s (%02X)", name == NULL ? "a line" : name, kind);
}

/* Whether a line is a trigger that has room for its counts, and its check. */
int has_counts(const struct line *line)
{
    return byte_in(line, 0) == TRIGGER && line->length >= 8;
}

/* How many digits a line of its kind has, of a trigger as it counts or at least; 0 for no kind. */
size_t size_by_kind(const struct line *line)
{
    switch (byte_in(line, 0)) {
    case HEADER:
        return 8;
    case PERIODIC:
        return 36;
    case TRIGGER:
        return has_counts(line) ? TRIGGER_REST + 2 * (byte_in(line, 1) + byte_in(line, 2))
                                : TRIGGER_LEAST;
    case END:
        return 10;
    case REQUEST_FRAME:
        return 18;
    case LAST_FRAME:
        return 12;
    default:
        return 0;
    }
}

/* The same in words, of a trigger with what it counts. */
void say_size_by_kind(const struct line *line)
{
    unsigned kind = byte_in(line, 0);

    say_kind(kind);
    if (has_counts(line)) {
        printf(" that counts ");
        say_count(stdout, byte_in(line, 1), "event");
        printf(" and ");
        say_count(stdout, byte_in(line, 2), "condition");
    }
    printf(kind == TRIGGER && !has_counts(line) ? " has at least" : " has");
    printf(" %lu digits", (unsigned long)size_by_kind(line));
}

/* The line that ends the sheet, the first that begins F0, by its number; 0 when there is none. */
unsigned long line_of_end(struct text text)
{
    unsigned long number;
    struct line line;

    for (number = 1; take_line(&text, &line); number++) {
        if (begins(&line, "F0")) {
            return number;
        }
    }
    return 0;
}

/* A frame with its check, as it is typed. */
static void say_bytes(const uint8_t *bytes, size_t count)
{
    unsigned sum = 0;
    size_t i;

    for (i = 0; i < count; i++) {
        printf("%02X", (unsigned)bytes[i]);
        sum += bytes[i];
    }
    printf("%02X", (256 - sum % 256) % 256);
}

/* The end of a sheet that has these rows. */
void say_end_line(const struct sheet *sheet)
{
    uint8_t bytes[4];

    bytes[0] = END;
    bytes[1] = (uint8_t)sheet->periodic_count;
    bytes[2] = (uint8_t)(sheet->trigger_count >> 8);
    bytes[3] = (uint8_t)sheet->trigger_count;
    say_bytes(bytes, sizeof bytes);
}

/* The end of a tape whose day has this last minute. */
void say_last_line(uint32_t minute)
{
    uint8_t bytes[5];
    unsigned i;

    bytes[0] = LAST_FRAME;
    for (i = 1; i < 5; i++) {
        bytes[i] = (uint8_t)(minute >> 8 * (4 - i));
    }
    say_bytes(bytes, sizeof bytes);
}
