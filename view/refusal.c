/*
 * A refusal in words: the one thing that is wrong, and the line with a mark under it. Numbers are
 * given as they are typed.
 */
#include "refusal.h"

#include "circle.h"
#include "kinds.h"

enum { INPUT_MOST = 65536 };

/* The names of 'What comes back'. */
static const char *name_of(unsigned number)
{
    static const char *const names[] = {"OK",    "LENGTH",   "FRAME", "CHECK", "KIND",
                                        "FIELD", "TOO MANY", "COUNT", "LOOP",  "REQUEST"};

    return names[number];
}

/* TOO MANY: which one of its kind the line is. */
static struct mark say_too_many(const struct line *line)
{
    if (begins(line, "20")) {
        printf("this is the 129th periodic row, and a sheet has at most 128");
    } else if (begins(line, "30")) {
        printf("this is the 257th trigger, and a sheet has at most 256");
    } else {
        printf("this is the 33rd request of minute %lu, and a minute has at most 32",
               (unsigned long)number_in(line, 1, 4));
    }
    return mark_of(1, 2);
}

/* What is wrong, and what of the line is to be marked. */
static struct mark say_fault(const struct sheet *sheet, const struct refusal *refusal)
{
    switch (refusal->number) {
    case FRAME:
        return say_frame_fault(refusal);
    case CHECK:
        return say_check_fault(&refusal->line);
    case KIND:
        return say_kind_fault(sheet, refusal);
    case FIELD:
        return say_field_fault(sheet, refusal);
    case TOO_MANY:
        return say_too_many(&refusal->line);
    case COUNT:
        return say_count_fault(sheet, &refusal->line);
    default:
        return say_request_fault(sheet, refusal);
    }
}

/* The refused line in words, where it has any, so that its sentence can be found; not a header. */
static void say_words(const struct names *names, struct sheet *sheet, const struct line *line)
{
    FILE *room = tmpfile();
    struct frame frame;
    int byte;

    if (room != NULL && frame_of(line, &frame) && frame.bytes[0] != HEADER
        && say_frame(room, names, sheet, &frame)) {
        printf("In words");
        rewind(room);
        while ((byte = getc(room)) != EOF) {
            putchar(byte);
        }
        putchar('\n');
    }
    if (room != NULL) {
        fclose(room);
    }
}

/* A refusal whose place is a line. */
static void say_at_line(const struct names *names, struct sheet *sheet,
                        const struct refusal *refusal)
{
    struct mark mark;

    printf("refused at line %lu: %u %s: ", (unsigned long)refusal->place, refusal->number,
           name_of(refusal->number));
    mark = say_fault(sheet, refusal);
    printf("\n");
    if (!refusal->at_end) {
        show_marked(&refusal->line, mark);
    }
    if (refusal->number == FIELD || refusal->number == REQUEST) {
        say_words(names, sheet, &refusal->line);
    }
    if (refusal->on_tape) {
        printf("The sheet itself passed, the loop test too.\n");
    }
}

/* LOOP: the pair, and a circle through it. */
static void say_loop(const struct names *names, const struct sheet *sheet, uint32_t place)
{
    unsigned from = place / EVENTS, to = place % EVENTS;

    printf("refused: %u %s at place %lu: from ", LOOP, name_of(LOOP), (unsigned long)place);
    say_event(stdout, names, from);
    printf(" to ");
    say_event(stdout, names, to);
    printf("\n");
    if (!say_circle(names, sheet, from, to)) {
        printf("The circle could not be shown.\n");
    }
}

/* LENGTH: what is too long. */
static void say_length(struct text text)
{
    unsigned long end = line_of_end(text);

    printf("refused: %u %s: ", LENGTH, name_of(LENGTH));
    if (text.length > INPUT_MOST) {
        printf("the input has more than 65,536 bytes");
    } else if (end != 0) {
        printf("the sheet, all up to line %lu, the first that begins F0, has more than 16,384"
               " bytes", end);
    } else {
        printf("no line begins F0, so that all of it is sheet, and it has more than 16,384 bytes");
    }
    printf("; no line was tested\n");
}

/* A refusal of any number. */
void say_refusal(const struct names *names, struct sheet *sheet, const struct refusal *refusal)
{
    if (refusal->number == LENGTH) {
        say_length(refusal->input);
    } else if (refusal->number == LOOP) {
        say_loop(names, sheet, refusal->place);
    } else {
        say_at_line(names, sheet, refusal);
    }
}
