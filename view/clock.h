/* Minutes as clocks show them, where minute 0 is midnight. */
#ifndef VIEW_CLOCK_H
#define VIEW_CLOCK_H

#include <stdint.h>
#include <stdio.h>

enum {
    HOUR = 60,
    DAY = 24 * HOUR,
    WEEK = 7 * DAY
};

/* clock.c */
const char *name_of_period(unsigned period);
void say_clock(FILE *out, uint32_t minute, int with_day);
void say_time(FILE *out, uint32_t minute);

#endif
