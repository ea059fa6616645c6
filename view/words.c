/*
 * A sheet and its tape, or a sheet alone, in words, a line for each frame. What passes and what
 * does not is for the proved programs to say: the first line that the one of a day, or of a sheet
 * alone, printed of this input is given with it, and here no more is asked of a frame than what it
 * says.
 */
#include "inputs.h"
#include "refusal.h"

#include <stdlib.h>
#include <string.h>

/* One clear line; the status comes back. */
static int fail(int status, const char *why)
{
    fprintf(stderr, "box: words: %s\n", why);
    return status;
}

/*
 * Reads a program's first line: 50 begins a day and 10 a sheet, which are OK, E0 a refusal with its
 * number, place and column. 0 when it is none of them.
 */
static int read_verdict(const char *text, struct refusal *refusal)
{
    struct line line;
    struct frame frame;

    line.bytes = (const uint8_t *)text;
    line.length = strlen(text);
    line.ended = 1;
    memset(refusal, 0, sizeof *refusal);
    if (!frame_of(&line, &frame) || sum_of(&frame, frame.length) != 0) {
        return 0;
    }
    if (frame.bytes[0] != REFUSAL_FRAME || frame.length != 11) {
        return frame.bytes[0] == MINUTE_FRAME || frame.bytes[0] == HEADER;
    }
    refusal->number = frame.bytes[1];
    refusal->place = number_at(&frame, 2, 4);
    refusal->column = number_at(&frame, 6, 4);
    return refusal->number >= LENGTH && refusal->number <= REQUEST;
}

/* Says a line that passed. The line itself is shown where there are no words for it. */
static void say_line(const struct names *names, struct sheet *sheet, const struct line *line,
                     unsigned long number)
{
    unsigned trigger = sheet->trigger_count;
    struct frame frame;

    printf("line %lu", number);
    if (!frame_of(line, &frame) || !say_frame(stdout, names, sheet, &frame)) {
        show_line(stdout, line);
    }
    printf("\n");
    if (sheet->trigger_count > trigger) {
        sheet->trigger_line[trigger] = number;
    }
}

/*
 * Says the lines up to the refused one, or all, and leaves in the refusal what stands at its
 * place. A loop is the whole sheet's, so its lines end where the sheet does.
 */
static void say_lines(const struct names *names, struct sheet *sheet, struct text text,
                      struct refusal *refusal)
{
    int at_line = refusal->number != OK && refusal->number != LOOP;
    unsigned long number;

    for (number = 1; take_line(&text, &refusal->line); number++) {
        if (at_line && number == refusal->place) {
            return;
        }
        say_line(names, sheet, &refusal->line, number);
        refusal->above = refusal->line;
        refusal->before++;
        if (!refusal->on_tape && begins(&refusal->line, "F0")) {
            if (refusal->number == LOOP) {
                return;
            }
            refusal->on_tape = 1;
            refusal->before = 0;
        }
    }
    refusal->at_end = 1;
}

/*
 * Says the whole input: the lines that passed, none where it is too long, and the refusal; of a
 * sheet alone that passed, what is missing for a day.
 */
static void say_input(const struct names *names, struct sheet *sheet, struct text text,
                      struct refusal *refusal)
{
    refusal->input = text;
    if (refusal->number != LENGTH) {
        say_lines(names, sheet, text, refusal);
    }
    if (refusal->number != OK) {
        say_refusal(names, sheet, refusal);
    } else if (refusal->before == 0) {
        printf("# No tape follows the sheet, so there is no day to run yet. The shortest tape is"
               " 'the day ends after minute 0', the one line F1000000000F.\n");
    }
}

/* Whether each name is of a role of the sheet; not asked where its header did not pass. */
static int names_hold(const struct names *names, struct text text, const struct refusal *refusal)
{
    int passed = refusal->number != LENGTH && (refusal->number == OK || refusal->place != 1);
    unsigned roles = passed ? roles_of(text) : 0;

    return roles == 0 || names_fit(names, "words", roles);
}

/* Reads the verdict and the input and says them. */
static int answer(const struct names *names, char **words, uint8_t *bytes, struct sheet *sheet)
{
    struct refusal refusal;
    struct text text;

    text.bytes = bytes;
    if (!read_input(words[0], bytes, &text.length)) {
        return fail(1, "the input could not be read");
    }
    if (!read_verdict(words[1], &refusal)) {
        return fail(2, "the verdict is neither a line of a day or a sheet nor a refusal");
    }
    if (!names_hold(names, text, &refusal)) {
        return 2;
    }
    say_input(names, sheet, text, &refusal);
    if (fflush(stdout) != 0 || ferror(stdout)) {
        return fail(1, "the words could not be written");
    }
    return 0;
}

/* The words of an input, with memory of its own. */
static int answer_with_memory(const struct names *names, char **words)
{
    uint8_t *bytes = malloc(KEPT_MOST);
    struct sheet *sheet = calloc(1, sizeof *sheet);
    int status;

    if (bytes == NULL || sheet == NULL) {
        status = fail(1, "there is no memory");
    } else {
        status = answer(names, words, bytes, sheet);
    }
    free(bytes);
    free(sheet);
    return status;
}

/*
 * The words of an input; with --try only the names are tested. The status is 0 when the words were
 * printed, of a refused input too, 1 when that failed, 2 on misuse or when a name does not fit.
 */
int main(int count, char **words)
{
    struct call call;
    int at = take_call(&call, "words", count, words);

    if (at == 0) {
        return 2;
    }
    if (call.try) {
        return 0;
    }
    if (count != at + 2) {
        return fail(2, "usage: words [--try] [--roles 3=Adjust,7=Release] INPUT VERDICT");
    }
    return answer_with_memory(&call.names, words + at);
}
