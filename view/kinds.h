/* The kinds of frames: what they are called, how long their lines are, and whole lines of ends. */
#ifndef VIEW_KINDS_H
#define VIEW_KINDS_H

#include "rows.h"

/* kinds.c */
const char *name_of_kind(unsigned kind);
void say_kind(unsigned kind);
int has_counts(const struct line *line);
size_t size_by_kind(const struct line *line);
void say_size_by_kind(const struct line *line);
unsigned long line_of_end(struct text text);
void say_end_line(const struct sheet *sheet);
void say_last_line(uint32_t minute);

#endif
