/* Frames and their parts in words. */
#ifndef VIEW_SAY_H
#define VIEW_SAY_H

#include "names.h"
#include "rows.h"

/* say.c */
void say_count(FILE *out, unsigned count, const char *thing);
void say_roles(FILE *out, unsigned count);
void say_event(FILE *out, const struct names *names, unsigned event);
int say_frame(FILE *out, const struct names *names, struct sheet *sheet,
              const struct frame *frame);

#endif
