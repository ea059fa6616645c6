/* The fields of frames: their places, names and limits. */
#ifndef VIEW_FIELDS_H
#define VIEW_FIELDS_H

#include "rows.h"

/* What limits a field: two numbers, or what stands in other fields. */
enum limit {
    RANGE,
    FROM_BEGIN,
    BELOW_PERIOD,
    TO_PERIOD,
    EVENT,
    CONDITION,
    FROM_ABOVE,
    LAST_MINUTE
};

/* A field: what it is called, its first byte, how many it has, what limits it, and its range. */
struct field {
    const char *name;
    size_t at, bytes;
    enum limit limit;
    uint32_t least, most;
};

/* fields.c */
int field_at(const struct line *line, size_t at, struct field *field);

#endif
