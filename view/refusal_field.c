/* FIELD and REQUEST in words: the field, its value and its limit, as typed and in decimal. */
#include "refusal.h"

#include "fields.h"

/* A number as it is typed in so many bytes, and in decimal. */
static void say_number(uint32_t number, size_t bytes)
{
    printf("%0*lX (%lu)", (int)(2 * bytes), (unsigned long)number, (unsigned long)number);
}

/* The number of a field of a line. */
static uint32_t number_of(const struct line *line, const struct field *field)
{
    return number_in(line, field->at, field->bytes);
}

/* The period of a row, which limits its first minute and its run. */
static void say_period(const struct line *line)
{
    printf("the period, ");
    say_number(number_in(line, 9, 2), 2);
}

/* From one number to another, of which the lower may be 0, or both the same. */
static void say_range(const struct field *field)
{
    if (field->least == field->most) {
        printf("must be ");
    } else if (field->least == 0) {
        printf("must be at most ");
    } else {
        printf("must be from ");
        say_number(field->least, field->bytes);
        printf(" to ");
    }
    say_number(field->most, field->bytes);
}

/* The end of a window: neither before its begin nor after the last instant. */
static void say_end_limit(const struct line *line, const struct field *field)
{
    if (number_of(line, field) > field->most) {
        say_range(field);
    } else {
        printf("must be at least the begin, ");
        say_number(number_in(line, 1, 4), 4);
    }
    printf(", or FFFFFFFF for no end");
}

/* An event or a condition: below twice the role count. */
static void say_role_limit(const struct sheet *sheet, uint32_t number, enum limit limit)
{
    unsigned role = number / 2;

    if (limit == EVENT) {
        printf("which is %s %u, ", number % 2 == 1 ? "enable" : "disable", role);
    } else {
        printf("which is 'role %u is %s', ", role, number % 2 == 1 ? "enabled" : "not enabled");
    }
    printf("must be below ");
    say_number(2 * sheet->role_count, 1);
    printf(": the header counts ");
    say_roles(stdout, sheet->role_count);
}

/* The minute of the request above, and where it stands. */
static void say_above(const struct refusal *refusal)
{
    printf("the minute of the request in line %lu, ", (unsigned long)refusal->place - 1);
    say_number(number_in(&refusal->above, 1, 4), 4);
}

/*
 * The last minute of a tape: neither past what a day can have nor before the last request. Where
 * that request is itself past it, no last minute would do.
 */
static void say_last_limit(const struct refusal *refusal, const struct field *field)
{
    int late = refusal->before > 0 && number_in(&refusal->above, 1, 4) > field->most;

    if (number_of(&refusal->line, field) > field->most) {
        say_range(field);
        if (late) {
            printf(", and so must ");
            say_above(refusal);
        }
        return;
    }
    printf("must be at least ");
    say_above(refusal);
    if (late) {
        printf("; but no day goes past ");
        say_number(field->most, field->bytes);
        printf(", so that request is too late");
    }
}

/* What limits a field, going on from its value. */
static void say_limit(const struct sheet *sheet, const struct refusal *refusal,
                      const struct field *field)
{
    const struct line *line = &refusal->line;

    switch (field->limit) {
    case RANGE:
        say_range(field);
        break;
    case FROM_BEGIN:
        say_end_limit(line, field);
        break;
    case BELOW_PERIOD:
        printf("must be below ");
        say_period(line);
        break;
    case TO_PERIOD:
        printf("must be from ");
        say_number(field->least, field->bytes);
        printf(" to ");
        say_period(line);
        break;
    case EVENT:
    case CONDITION:
        say_role_limit(sheet, number_of(line, field), field->limit);
        break;
    case FROM_ABOVE:
        printf("must be at least ");
        say_above(refusal);
        break;
    default:
        say_last_limit(refusal, field);
    }
}

/* The field of the refused line that begins at a byte. */
static struct mark say_field(const struct sheet *sheet, const struct refusal *refusal, size_t at)
{
    struct field field;

    if (!field_at(&refusal->line, at, &field)) {
        printf("a field is outside its limit");
        return mark_of(1, 0);
    }
    printf("the %s, ", field.name);
    say_number(number_of(&refusal->line, &field), field.bytes);
    printf(", ");
    say_limit(sheet, refusal, &field);
    return mark_of(2 * at + 1, 2 * field.bytes);
}

/* FIELD: the field at the column. */
struct mark say_field_fault(const struct sheet *sheet, const struct refusal *refusal)
{
    return say_field(sheet, refusal, refusal->column == 0 ? 0 : (refusal->column - 1) / 2);
}

/* REQUEST: the first field that is outside its limit, for the program gives no column here. */
struct mark say_request_fault(const struct sheet *sheet, const struct refusal *refusal)
{
    const struct line *line = &refusal->line;

    if (byte_in(line, 5) >= 2 * sheet->role_count) {
        return say_field(sheet, refusal, 5);
    }
    return say_field(sheet, refusal, byte_in(line, 6) > PRIORITY_MOST ? 6 : 7);
}
