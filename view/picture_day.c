/* The day as it was printed, and what can be said of its minutes. */
#include "hex.h"
#include "picture.h"

#include <stdio.h>

enum { LINE_BYTES = 31 }; /* a frame of 15 bytes and 0A */

/* Takes a line as the frame of a minute; 0 where it is none. */
static int take_frame(const uint8_t *bytes, struct frame *frame)
{
    struct line line;

    line.bytes = bytes;
    line.length = LINE_BYTES - 1;
    line.ended = bytes[LINE_BYTES - 1] == 0x0A;
    return line.ended && frame_of(&line, frame) && sum_of(frame, frame->length) == 0
        && frame->bytes[0] == MINUTE_FRAME;
}

/* Takes the next minute of the day from its line; 0 where it is not that minute's. */
static int take_minute(struct day *day, const uint8_t *line)
{
    struct frame frame;

    if (day->count == MINUTES_MOST || !take_frame(line, &frame)
        || number_at(&frame, 1, 4) != day->count) {
        return 0;
    }
    day->open[day->count] = (uint64_t)number_at(&frame, 5, 4) << 32 | number_at(&frame, 9, 4);
    day->count++;
    return 1;
}

/* Reads the whole day from standard input; 0, with one line said, where it is none. */
int read_day(struct day *day)
{
    uint8_t line[LINE_BYTES];
    size_t got;

    day->count = 0;
    do {
        got = fread(line, 1, LINE_BYTES, stdin);
    } while (got == LINE_BYTES && take_minute(day, line));
    if (ferror(stdin)) {
        fprintf(stderr, "box: picture: standard input could not be read\n");
        return 0;
    }
    if (got > 0 || day->count == 0) {
        fprintf(stderr,
                "box: picture: line %lu is not what the day program prints for minute %lu\n",
                (unsigned long)day->count + 1, (unsigned long)day->count);
        return 0;
    }
    return 1;
}

/* Adds the line of a role. */
static void add_lane(struct board *board, unsigned role, const char *name)
{
    board->lane[board->count].role = role;
    board->lane[board->count].name = name;
    board->count++;
    board->mask |= UINT64_C(1) << role;
}

/*
 * The lines that are drawn: one for each name, or else one for each role that is ever open. Where
 * no role is said to be apart, all that have names are.
 */
void choose_lanes(struct board *board, const struct day *day, const struct names *names,
                  uint64_t apart)
{
    size_t i;
    unsigned role;

    board->day = day;
    board->named = names->count > 0;
    board->count = 0;
    board->mask = 0;
    board->ever = 0;
    for (i = 0; i < day->count; i++) {
        board->ever |= day->open[i];
    }
    for (i = 0; i < names->count; i++) {
        add_lane(board, names->list[i].role, names->list[i].text);
    }
    for (role = 0; role < ROLES_MOST && !board->named; role++) {
        if (board->ever >> role & 1) {
            add_lane(board, role, "");
        }
    }
    board->apart = apart != 0 ? apart : board->named ? board->mask : 0;
}

/* How many roles a set has. */
size_t roles_in(uint64_t set)
{
    size_t count = 0;

    for (; set != 0; set &= set - 1) {
        count++;
    }
    return count;
}

/* The roles that were open before the minute; before minute 0 there are none. */
uint64_t roles_before(const struct board *board, size_t minute)
{
    return minute == 0 ? 0 : board->day->open[minute - 1];
}

/* Whether some line changes at the minute. */
int changes(const struct board *board, size_t minute)
{
    return ((roles_before(board, minute) ^ board->day->open[minute]) & board->mask) != 0;
}

/* The roles that must be apart and are open in the minute, if two or more are; else none. */
uint64_t both_open(const struct board *board, size_t minute)
{
    uint64_t open = board->day->open[minute] & board->apart;

    return (open & (open - 1)) != 0 ? open : 0;
}

/* The minute, at most "to", up to which roles clash, or do not, as in this one. */
size_t both_until(const struct board *board, size_t minute, size_t to)
{
    int both = both_open(board, minute) != 0;

    while (minute < to && (both_open(board, minute) != 0) == both) {
        minute++;
    }
    return minute;
}
