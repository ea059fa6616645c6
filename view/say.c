/*
 * Frames and their parts in words. What is said of a frame goes on from 'line 4', which stands
 * before it; of one without words nothing is said, and 0 comes back.
 */
#include "say.h"

#include "clock.h"

/* So many things, as '1 trigger' or '2 triggers'. */
void say_count(FILE *out, unsigned count, const char *thing)
{
    fprintf(out, "%u %s%s", count, thing, count == 1 ? "" : "s");
}

/* A role: its name, or its number after some words when it has none. */
static void say_role(FILE *out, const struct names *names, unsigned role, const char *before)
{
    const char *name = name_of_role(names, role);

    if (name != NULL) {
        fprintf(out, "%s", name);
    } else {
        fprintf(out, "%s%u", before, role);
    }
}

/* An event, as 'enable 2'. */
void say_event(FILE *out, const struct names *names, unsigned event)
{
    fprintf(out, event % 2 == 1 ? "enable " : "disable ");
    say_role(out, names, event / 2, "");
}

/* A condition, as 'role 2 is not enabled'. */
static void say_condition(FILE *out, const struct names *names, unsigned condition)
{
    say_role(out, names, condition / 2, "role ");
    fprintf(out, condition % 2 == 1 ? " is enabled" : " is not enabled");
}

/* What is to happen: an event, its priority and its delay, of none too. */
static void say_act(FILE *out, const struct names *names, unsigned event, unsigned priority,
                    unsigned delay)
{
    say_event(out, names, event);
    fprintf(out, " at priority %u, ", priority);
    if (delay == 0) {
        fprintf(out, "in the same minute");
    } else {
        fprintf(out, "after ");
        say_count(out, delay, "minute");
    }
}

/* From one number to another, which may be the same. */
static void say_span(FILE *out, unsigned from, unsigned to)
{
    fprintf(out, "%u", from);
    if (from != to) {
        fprintf(out, " to %u", to);
    }
}

/* How many roles there are, and which, as '3 roles (0 to 2)'; there is one at least. */
void say_roles(FILE *out, unsigned count)
{
    say_count(out, count, "role");
    fprintf(out, " (");
    say_span(out, 0, count - 1);
    fprintf(out, ")");
}

/* The header: how many roles there are, how rows are counted, and which roles have names. */
static int say_header(FILE *out, const struct names *names, struct sheet *sheet,
                      const struct frame *frame)
{
    size_t i;

    if (frame->length != 4 || frame->bytes[2] == 0) {
        return 0;
    }
    sheet->role_count = frame->bytes[2];
    fprintf(out, ": a sheet of ");
    say_roles(out, sheet->role_count);
    fprintf(out, "; its periodic rows and its triggers are each counted from 0");
    for (i = 0; i < names->count; i++) {
        fprintf(out, "%s role %u is %s", i == 0 ? ";" : ",", names->list[i].role,
                names->list[i].text);
    }
    return 1;
}

/* Some minutes on end, as numbers or as clocks; in a week each clock has its day. */
static void say_minutes(FILE *out, const struct periodic *row, unsigned from, unsigned to,
                        int clocks)
{
    if (!clocks) {
        say_span(out, from, to);
        return;
    }
    say_clock(out, from, row->period == WEEK);
    if (from != to) {
        fprintf(out, " to ");
        say_clock(out, to, row->period == WEEK);
    }
}

/*
 * The minutes of each period in which a row is due. A run past the end of the period goes on at
 * the first minute of the next.
 */
static void say_run(FILE *out, const struct periodic *row, int clocks)
{
    unsigned past = row->first + row->run;

    if (past <= row->period || row->first >= row->period) {
        say_minutes(out, row, row->first, past - 1, clocks);
    } else {
        say_minutes(out, row, row->first, row->period - 1, clocks);
        fprintf(out, " and ");
        say_minutes(out, row, 0, past - row->period - 1, clocks);
    }
}

/* The same, with the clocks of a day or a week, and with the period. */
static void say_window(FILE *out, const struct periodic *row)
{
    if (row->period == 1 && row->first == 0 && row->run == 1) {
        fprintf(out, ", in every minute");
        return;
    }
    fprintf(out, row->run == 1 ? ", in minute " : ", in minutes ");
    say_run(out, row, 0);
    if (row->period == DAY || row->period == WEEK) {
        fprintf(out, " (");
        say_run(out, row, 1);
        fprintf(out, ")");
    }
    fprintf(out, " of every %u", row->period);
    if (name_of_period(row->period) != NULL) {
        fprintf(out, " (%s)", name_of_period(row->period));
    }
    if (row->begin != 0) {
        fprintf(out, " (counted from minute 0)");
    }
}

/* From which minute on a row counts, and up to which. */
static void say_bounds(FILE *out, const struct periodic *row)
{
    fprintf(out, ", from minute ");
    if (row->begin == 0) {
        fprintf(out, "0");
    } else {
        say_time(out, row->begin);
    }
    if (row->end == NO_END) {
        fprintf(out, " on");
    } else {
        fprintf(out, " to the end of minute ");
        say_time(out, row->end);
    }
}

/* A periodic row. */
static int say_periodic(FILE *out, const struct names *names, struct sheet *sheet,
                        const struct frame *frame)
{
    struct periodic row;

    if (!periodic_of(frame, &row)) {
        return 0;
    }
    fprintf(out, ", periodic %u: ", sheet->periodic_count);
    sheet->periodic_count++;
    say_event(out, names, row.event);
    fprintf(out, " at priority %u", row.priority);
    say_window(out, &row);
    say_bounds(out, &row);
    return 1;
}

/* A trigger, which the sheet keeps. */
static int say_trigger(FILE *out, const struct names *names, struct sheet *sheet,
                       const struct frame *frame)
{
    struct trigger row;
    unsigned i;

    if (sheet->trigger_count == TRIGGERS_MOST || !trigger_of(frame, &row)) {
        return 0;
    }
    fprintf(out, ", trigger %u: ", sheet->trigger_count);
    sheet->triggers[sheet->trigger_count] = row;
    sheet->trigger_count++;
    for (i = 0; i < row.event_count; i++) {
        fprintf(out, i == 0 ? "on " : " and ");
        say_event(out, names, row.events[i]);
    }
    for (i = 0; i < row.condition_count; i++) {
        fprintf(out, i == 0 ? ", while " : " and ");
        say_condition(out, names, row.conditions[i]);
    }
    fprintf(out, ": ");
    say_act(out, names, row.head, row.priority, row.delay);
    return 1;
}

/* The end of the sheet. */
static int say_end(FILE *out, const struct frame *frame)
{
    struct end end;

    if (!end_of(frame, &end)) {
        return 0;
    }
    fprintf(out, ": the end of the sheet, which has ");
    say_count(out, end.periodic_count, "periodic row");
    fprintf(out, " and ");
    say_count(out, end.trigger_count, "trigger");
    return 1;
}

/* A request of the tape. */
static int say_request(FILE *out, const struct names *names, const struct frame *frame)
{
    struct request request;

    if (!request_of(frame, &request)) {
        return 0;
    }
    fprintf(out, ", minute ");
    say_time(out, request.minute);
    fprintf(out, ": request ");
    say_act(out, names, request.event, request.priority, request.delay);
    return 1;
}

/* The end of the tape. */
static int say_last(FILE *out, const struct frame *frame)
{
    if (frame->length != 6) {
        return 0;
    }
    fprintf(out, ": the day ends after minute ");
    say_time(out, number_at(frame, 1, 4));
    return 1;
}

/* A frame of any kind. */
int say_frame(FILE *out, const struct names *names, struct sheet *sheet, const struct frame *frame)
{
    switch (frame->bytes[0]) {
    case HEADER:
        return say_header(out, names, sheet, frame);
    case PERIODIC:
        return say_periodic(out, names, sheet, frame);
    case TRIGGER:
        return say_trigger(out, names, sheet, frame);
    case REQUEST_FRAME:
        return say_request(out, names, frame);
    case END:
        return say_end(out, frame);
    case LAST_FRAME:
        return say_last(out, frame);
    default:
        return 0;
    }
}
