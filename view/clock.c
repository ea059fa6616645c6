/* Minutes as clocks show them, where minute 0 is midnight. */
#include "clock.h"

#include <stddef.h>

/* What people call so many minutes; NULL where they have no name for them. */
const char *name_of_period(unsigned period)
{
    switch (period) {
    case HOUR:
        return "an hour";
    case DAY:
        return "a day";
    case WEEK:
        return "a week";
    default:
        return NULL;
    }
}

/* A minute as '8:00' or, with its day, as '8:00 of day 2'; days are counted from 1. */
void say_clock(FILE *out, uint32_t minute, int with_day)
{
    uint32_t day = minute / DAY, within = minute % DAY;

    fprintf(out, "%lu:%02lu", (unsigned long)(within / HOUR), (unsigned long)(within % HOUR));
    if (with_day) {
        fprintf(out, " of day %lu", (unsigned long)day + 1);
    }
}

/* A minute and its clock, as '480 (8:00)'; from the second day on the day stands with it. */
void say_time(FILE *out, uint32_t minute)
{
    fprintf(out, "%lu (", (unsigned long)minute);
    say_clock(out, minute, minute >= DAY);
    fprintf(out, ")");
}
