/* CHECK and COUNT in words: what is added up, and what it is held to. */
#include "refusal.h"

#include "kinds.h"

/* The sum of the first bytes of a line, so many of them. */
static unsigned long sum_in(const struct line *line, size_t bytes)
{
    unsigned long sum = 0;
    size_t i;

    for (i = 0; i < bytes; i++) {
        sum += byte_in(line, i);
    }
    return sum;
}

/* What is worse than a wrong check: no such kind, or not its length; whether there is any. */
static int say_graver(const struct line *line)
{
    size_t size = size_by_kind(line);

    if (size == line->length) {
        return 0;
    }
    printf("the bytes do not add up to a multiple of 256; ");
    if (size == 0) {
        printf("there is no kind %02X", byte_in(line, 0));
    } else {
        say_size_by_kind(line);
        printf(", and this line has %lu", (unsigned long)line->length);
    }
    printf(": look for that first");
    return 1;
}

/* CHECK: what the check must be if all before it is right. */
struct mark say_check_fault(const struct line *line)
{
    size_t before = line->length < 2 ? 0 : line->length / 2 - 1;
    unsigned long sum = sum_in(line, before);

    if (!say_graver(line)) {
        printf("the check, %02X, must be %02X if all before it is right: the bytes before it add up"
               " to %lu, and with the check to a multiple of 256",
               byte_in(line, before), (256 - (unsigned)(sum % 256)) % 256, sum);
    }
    return mark_of(2 * before + 1, 2);
}

/* A count of the end beside what there is, where they differ. */
static void say_counted(unsigned counted, unsigned there, const char *thing)
{
    if (counted != there) {
        printf("the end counts ");
        say_count(stdout, counted, thing);
        printf(", and the sheet has %u; ", there);
    }
}

/* COUNT: which count differs, and the end that would be right. */
struct mark say_count_fault(const struct sheet *sheet, const struct line *line)
{
    unsigned periodics = byte_in(line, 1), triggers = number_in(line, 2, 2);

    say_counted(periodics, sheet->periodic_count, "periodic row");
    say_counted(triggers, sheet->trigger_count, "trigger");
    printf("if no row was lost or added, the end is ");
    say_end_line(sheet);
    if (triggers == sheet->trigger_count) {
        return mark_of(3, 2);
    }
    return periodics == sheet->periodic_count ? mark_of(5, 4) : mark_of(3, 6);
}
