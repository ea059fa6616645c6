/* The loop that the program found, as a circle of steps. */
#ifndef VIEW_CIRCLE_H
#define VIEW_CIRCLE_H

#include "say.h"

/* circle.c */
int say_circle(const struct names *names, const struct sheet *sheet, unsigned from, unsigned to);

#endif
