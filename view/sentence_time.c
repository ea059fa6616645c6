/* Minutes as people write them: as numbers, or as clocks where minute 0 is midnight. */
#include "sentences.h"

#include "clock.h"

#include <string.h>

static const char decimal[] = "0123456789";

/* The number of one digit or two. */
static uint32_t number_of_digits(const char *at, size_t digits)
{
    uint32_t first = (uint32_t)(at[0] - '0');

    return digits == 1 ? first : 10 * first + (uint32_t)(at[1] - '0');
}

/* Takes the hours and the minutes of a clock. */
static int need_hours(struct reading *reading, uint32_t *number)
{
    const char *hours = reading->at, *minutes;
    size_t digits = strspn(hours, decimal), more;

    if (digits > 2 || number_of_digits(hours, digits) > 23) {
        return fault(reading, hours, "expected a clock from 0:00 to 23:59, which is the last"
                                     " minute of a day");
    }
    minutes = hours + digits + 1;
    more = strspn(minutes, decimal);
    if (more == 2 && (minutes[2] == '-' || strncmp(minutes + 2, "\xE2\x80", 2) == 0)) {
        return fault(reading, minutes + 2, "expected 'to' between two minutes");
    }
    if (more != 2 || number_of_digits(minutes, 2) > 59 || in_word(minutes + 2)) {
        return fault(reading, minutes, "expected the minutes of the clock in two digits, 00 to"
                                       " 59");
    }
    *number = HOUR * number_of_digits(hours, digits) + number_of_digits(minutes, 2);
    reading->at = minutes + 2;
    return 1;
}

/* Takes a clock and its day, if that is there. */
static int need_clock(struct reading *reading, uint32_t most, struct minute *minute)
{
    const char *at;
    uint32_t day = 1;

    if (!need_hours(reading, &minute->number)) {
        return 0;
    }
    minute->clock = 1;
    minute->dated = take(reading, "of day");
    if (!minute->dated) {
        return 1;
    }
    skip_blanks(reading);
    at = reading->at;
    if (!need_number(reading, "the number of the day, as in 'of day 2', or 'of every day'",
                     most / DAY + 1, &day)) {
        return 0;
    }
    if (day == 0) {
        return fault(reading, at, "expected a day from 1 on: minute 0 is '0:00 of day 1'");
    }
    if (minute->number > most - DAY * (day - 1)) {
        return fault(reading, minute->at, "expected a minute up to %lu: the frame has no room for"
                                          " more", (unsigned long)most);
    }
    minute->number += DAY * (day - 1);
    return 1;
}

/* Takes a minute, a number or a clock. */
int need_minute(struct reading *reading, uint32_t most, struct minute *minute)
{
    skip_blanks(reading);
    memset(minute, 0, sizeof *minute);
    minute->at = reading->at;
    if (is_clock(reading->at)) {
        return need_clock(reading, most, minute);
    }
    return need_number(reading, "a minute, as 450 or 7:30", most, &minute->number);
}

/* Writes a minute as a number or as a clock, whichever another is. */
void write_minute(char *text, size_t room, uint32_t number, const struct minute *like)
{
    unsigned long day = number / DAY + 1, hour = number % DAY / HOUR, rest = number % HOUR;

    if (!like->clock) {
        snprintf(text, room, "%lu", (unsigned long)number);
    } else if (like->dated || day > 1) {
        snprintf(text, room, "%lu:%02lu of day %lu", hour, rest, day);
    } else {
        snprintf(text, room, "%lu:%02lu", hour, rest);
    }
}

/* Takes the clock in brackets that may follow a minute, and which must be the same. */
int need_own_clock(struct reading *reading, const struct minute *minute)
{
    struct minute other, clock = {NULL, 0, 1, 0};
    char text[40];

    if (!take(reading, "(")) {
        return 1;
    }
    if (!need_minute(reading, UINT32_MAX, &other)) {
        return 0;
    }
    if (!other.clock || other.number != minute->number) {
        write_minute(text, sizeof text, minute->number, &clock);
        return fault(reading, other.at, "expected %s, which is minute %lu", text,
                     (unsigned long)minute->number);
    }
    return need(reading, ")", "')' after the clock");
}

/* Takes a minute with its clock or without it. */
int need_time(struct reading *reading, uint32_t most, uint32_t *number)
{
    struct minute minute;

    if (!need_minute(reading, most, &minute)) {
        return 0;
    }
    *number = minute.number;
    return need_own_clock(reading, &minute);
}
