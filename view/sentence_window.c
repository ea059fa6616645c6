/* The window of a periodic row: in which minutes of each period it is due. */
#include "sentences.h"

#include "clock.h"

enum { MINUTE_MOST = 0xFFFF, CLOCK_BYTES = 40 };

/* Some minutes on end, as '450' or '480 to 539'; of one minute both are the same. */
struct span {
    struct minute from, to;
    int ranged; /* whether 'to' stands there */
};

/* The minutes of each period: one span, or two where a run goes on past the period's end. */
struct run {
    struct span spans[2];
    int parts;
};

/* Whether a clock in brackets comes next that belongs to one minute. */
static int own_clock_comes(const struct reading *reading)
{
    struct reading ahead = *reading;
    struct minute minute;

    ahead.quiet = 1;
    return take(&ahead, "(") && need_minute(&ahead, UINT32_MAX, &minute) && take(&ahead, ")");
}

/* Takes a minute of a window, and its clock. */
static int need_window_minute(struct reading *reading, struct minute *minute)
{
    return need_minute(reading, MINUTE_MOST, minute)
        && (!own_clock_comes(reading) || need_own_clock(reading, minute));
}

/* Takes some minutes on end. */
static int need_span(struct reading *reading, struct span *span)
{
    if (!need_window_minute(reading, &span->from)) {
        return 0;
    }
    span->to = span->from;
    span->ranged = take(reading, "to");
    return !span->ranged || need_window_minute(reading, &span->to);
}

/* Takes the minutes of a window. */
static int need_run(struct reading *reading, struct run *run)
{
    run->parts = 1;
    if (!need_span(reading, &run->spans[0])) {
        return 0;
    }
    run->parts += take(reading, "and");
    return run->parts == 1 || need_span(reading, &run->spans[1]);
}

/* Whether two spans are of the same minutes. */
static int same_span(const struct span *one, const struct span *other)
{
    return one->from.number == other->from.number && one->to.number == other->to.number;
}

/* Takes the clocks in brackets that may follow the minutes, and which must be the same. */
static int need_run_clocks(struct reading *reading, const struct run *run)
{
    const char *at = reading->at;
    struct run other;

    if (!take(reading, "(")) {
        return 1;
    }
    if (!need_run(reading, &other) || !need(reading, ")", "')' after the clocks")) {
        return 0;
    }
    if (other.parts != run->parts || !same_span(&run->spans[0], &other.spans[0])
        || (run->parts == 2 && !same_span(&run->spans[1], &other.spans[1]))) {
        return fault(reading, at, "expected the clocks of the minutes before the brackets, or no"
                                  " brackets");
    }
    return 1;
}

/* Takes 'minute' or 'minutes', of one or of several, and these. */
static int need_minutes(struct reading *reading, struct run *run)
{
    const char *at = reading->at;
    int one, singular = take(reading, "minute");

    if (!singular && !need(reading, "minutes", "'minute', 'minutes' or 'every minute', as in 'in"
                                               " minute 7:30 of every day'")) {
        return 0;
    }
    if (!need_run(reading, run) || !need_run_clocks(reading, run)) {
        return 0;
    }
    one = run->parts == 1 && !run->spans[0].ranged;
    if (one && !singular) {
        return fault(reading, at, "expected 'minute' for one minute, or 'to' and a last minute, as"
                                  " in 'minutes 8:00 to 8:59'");
    }
    return one || !singular ? 1 : fault(reading, at, "expected 'minutes', as there are several");
}

/* Takes a period: so many minutes, or its name, or both. */
static int need_period(struct reading *reading, uint32_t *period)
{
    if (take(reading, "day")) {
        *period = DAY;
    } else if (take(reading, "week")) {
        *period = WEEK;
    } else if (take(reading, "hour")) {
        *period = HOUR;
    } else if (!need_number(reading, "a period: 'day', 'week', 'hour' or a number of minutes, 1 to"
                                     " 10080", MINUTE_MOST, period)) {
        return 0;
    } else if (comes(reading, "minutes") || comes(reading, "hours") || comes(reading, "days")) {
        return fault(reading, reading->at, "expected no word after the number: a period is 'day',"
                                           " 'week', 'hour' or a number of minutes");
    }
    return 1;
}

/* Takes the brackets that may follow a period: its name, and from where it is counted. */
static int need_period_brackets(struct reading *reading, uint32_t period)
{
    char name[CLOCK_BYTES], expected[2 * CLOCK_BYTES];

    if (take(reading, "(counted from minute 0)") || !comes(reading, "(")) {
        return 1;
    }
    if (name_of_period(period) == NULL) {
        return need_end(reading, ", or ', from minute' and a minute");
    }
    snprintf(name, sizeof name, "(%s)", name_of_period(period));
    snprintf(expected, sizeof expected, "'%s'", name);
    if (!need(reading, name, expected)) {
        return 0;
    }
    take(reading, "(counted from minute 0)");
    return 1;
}

/* Whether a minute, if it is a clock, has its day, as it must in a week. */
static int day_there(const struct reading *reading, const struct minute *minute)
{
    if (!minute->clock || minute->dated) {
        return 1;
    }
    return fault(reading, minute->at, "expected a clock with its day, as in '7:30 of day 1': a week"
                                      " has each clock seven times");
}

/* Whether the clocks of a span have their days. */
static int days_there(const struct reading *reading, const struct span *span)
{
    return day_there(reading, &span->from) && day_there(reading, &span->to);
}

/* A span of one minute must be said as one, and another may not go backwards. */
static int span_stands(const struct reading *reading, const struct span *span)
{
    char text[CLOCK_BYTES];

    write_minute(text, sizeof text, span->from.number, &span->from);
    if (span->ranged && span->from.number == span->to.number) {
        return fault(reading, span->from.at, "expected '%s' alone, as it is one minute", text);
    }
    if (span->to.number < span->from.number) {
        return fault(reading, span->to.at, "expected a minute after %s", text);
    }
    return 1;
}

/* What is wrong with one span that goes on past the end of its period: it must be said in two. */
static int past_end(const struct reading *reading, const struct span *span, uint32_t period)
{
    uint32_t past = span->to.number < period ? span->to.number : span->to.number - period;
    char from[CLOCK_BYTES], last[CLOCK_BYTES], zero[CLOCK_BYTES], to[CLOCK_BYTES];

    write_minute(from, sizeof from, span->from.number, &span->from);
    write_minute(last, sizeof last, period - 1, &span->from);
    write_minute(zero, sizeof zero, 0, &span->from);
    write_minute(to, sizeof to, past, &span->from);
    if (past >= span->from.number) {
        return fault(reading, span->to.at, "expected a minute of the period: its last is %s", last);
    }
    return fault(reading, span->from.at, "expected '%s%s%s and %s%s%s': what goes on past the end"
                                         " of the period is said in two parts",
                 from, span->from.number == period - 1 ? "" : " to ",
                 span->from.number == period - 1 ? "" : last,
                 zero, past == 0 ? "" : " to ", past == 0 ? "" : to);
}

/* The first minute and the run of one span. A first minute past the period is not judged here. */
static int run_of_one(const struct reading *reading, const struct span *span,
                      struct periodic *row)
{
    int within = span->from.number < row->period;

    if (within && (span->to.number < span->from.number || span->to.number >= row->period)) {
        return past_end(reading, span, row->period);
    }
    if (!span_stands(reading, span)) {
        return 0;
    }
    row->first = span->from.number;
    row->run = span->to.number - span->from.number + 1;
    return row->run <= MINUTE_MOST ? 1
        : fault(reading, span->from.at, "expected a run of fewer minutes: the frame has room for at"
                                        " most %d", MINUTE_MOST);
}

/* The same of two, of which one ends with the period and the other begins with the next. */
static int run_of_two(const struct reading *reading, const struct run *run, struct periodic *row)
{
    const struct span *one = &run->spans[0], *two = &run->spans[1];
    char last[CLOCK_BYTES], zero[CLOCK_BYTES];

    if (row->period == 0) {
        return fault(reading, one->to.at, "expected one part: a period of 0 has no last minute");
    }
    write_minute(last, sizeof last, row->period - 1, &one->to);
    write_minute(zero, sizeof zero, 0, &two->from);
    if (one->to.number + 1 != row->period) {
        return fault(reading, one->to.at, "expected %s before 'and': of two parts the first ends"
                                          " with the last minute of the period", last);
    }
    if (two->from.number != 0) {
        return fault(reading, two->from.at, "expected %s after 'and': of two parts the second"
                                            " begins with the first minute of the period", zero);
    }
    if (!span_stands(reading, one) || !span_stands(reading, two)) {
        return 0;
    }
    row->first = one->from.number;
    row->run = row->period - row->first + two->to.number + 1;
    return row->run <= MINUTE_MOST ? 1
        : fault(reading, two->to.at, "expected a run of fewer minutes: the frame has room for at"
                                     " most %d", MINUTE_MOST);
}

/* Takes a window, as 'every minute' or 'minutes 8:00 to 8:59 of every day'. */
int need_window(struct reading *reading, struct periodic *row)
{
    struct run run;
    uint32_t period;

    row->first = 0;
    row->period = row->run = 1;
    if (take(reading, "every minute")) {
        take(reading, "(counted from minute 0)");
        return 1;
    }
    skip_blanks(reading);
    if (!need_minutes(reading, &run)
        || !need(reading, "of every", "'of every' and a period, as in 'of every day'")
        || !need_period(reading, &period) || !need_period_brackets(reading, period)) {
        return 0;
    }
    row->period = period;
    if (period == WEEK && !(days_there(reading, &run.spans[0])
                            && (run.parts == 1 || days_there(reading, &run.spans[1])))) {
        return 0;
    }
    return run.parts == 1 ? run_of_one(reading, &run.spans[0], row)
                          : run_of_two(reading, &run, row);
}
