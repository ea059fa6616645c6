/* A refusal in words: what its parts share. */
#ifndef VIEW_REFUSAL_H
#define VIEW_REFUSAL_H

#include "say.h"

/* The numbers of document 01's 'What comes back' that a day can have. */
enum {
    OK = 0,
    LENGTH = 1,
    FRAME = 2,
    CHECK = 3,
    KIND = 4,
    FIELD = 5,
    TOO_MANY = 6,
    COUNT = 7,
    LOOP = 8,
    REQUEST = 9
};

/* What the program said, and what stands where it refused. */
struct refusal {
    unsigned number;
    uint32_t place, column;
    struct text input;    /* all of it */
    int at_end;           /* whether the place is past the last line */
    struct line line;     /* else the refused line */
    struct line above;    /* the line that passed last, where any did */
    int on_tape;          /* whether the sheet passed */
    unsigned long before; /* lines of its own part, sheet or tape, that passed */
};

/* What is marked of a line: the first of so many characters, from 1; none where there are none. */
struct mark {
    size_t column, width;
};

/* refusal.c */
void say_refusal(const struct names *names, struct sheet *sheet, const struct refusal *refusal);

/* refusal_mark.c */
struct mark mark_of(size_t column, size_t width);
void show_marked(const struct line *line, struct mark mark);

/*
 * The rest: each says, going on from '2 FRAME: ', the one thing that is wrong, and gives back what
 * is to be marked.
 */

/* refusal_frame.c, and refusal_character.c for a character, of which it gives back the bytes */
struct mark say_frame_fault(const struct refusal *refusal);
size_t say_character(const struct refusal *refusal, size_t at);

/* refusal_sum.c */
struct mark say_check_fault(const struct line *line);
struct mark say_count_fault(const struct sheet *sheet, const struct line *line);

/* refusal_kind.c */
struct mark say_kind_fault(const struct sheet *sheet, const struct refusal *refusal);

/* refusal_field.c */
struct mark say_field_fault(const struct sheet *sheet, const struct refusal *refusal);
struct mark say_request_fault(const struct sheet *sheet, const struct refusal *refusal);

#endif
