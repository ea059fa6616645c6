/*
 * A file of frames with every check made right, and nothing else. Which lines changed is said on
 * standard error. Status: 0 done, 1 failed, 2 misuse.
 */
#include "inputs.h"

#include <stdlib.h>
#include <string.h>

/* Whether a line is made of two bytes or more, so that it has a check. */
static int has_check(const struct line *line)
{
    size_t i;

    for (i = 0; i < line->length; i++) {
        if (memchr("0123456789ABCDEF", line->bytes[i], 16) == NULL) {
            return 0;
        }
    }
    return line->length >= 4 && line->length % 2 == 0;
}

/* The check that a line must have. */
static unsigned check_of(const struct line *line)
{
    unsigned sum = 0;
    size_t i;

    for (i = 0; i + 1 < line->length / 2; i++) {
        sum += byte_in(line, i);
    }
    return (256 - sum % 256) % 256;
}

/* Says that a line stays as it is, of a file of Windows also why. */
static void say_stays(const struct line *line, unsigned long number)
{
    int windows = line->length > 0 && line->bytes[line->length - 1] == '\r';

    fprintf(stderr, "box: checks: line %lu is no frame, and stays as it is%s\n", number,
            windows ? ": it ends with CR and LF, as in files of Windows, where LF alone must be"
                    : "");
}

/* Writes a line with its check made right and says so if it changed; whether it did. */
static int mend_line(const struct line *line, unsigned long number)
{
    unsigned check, stood;

    if (!has_check(line)) {
        fwrite(line->bytes, 1, line->length, stdout);
        say_stays(line, number);
        return 0;
    }
    check = check_of(line);
    stood = byte_in(line, line->length / 2 - 1);
    fwrite(line->bytes, 1, line->length - 2, stdout);
    printf("%02X", check);
    if (check != stood) {
        fprintf(stderr, "box: checks: line %lu changed: the check %02X is now %02X\n", number,
                stood, check);
    }
    return check != stood;
}

/* Writes the whole text and gives back how many lines changed. */
static unsigned long mend(struct text text)
{
    unsigned long number, changed = 0;
    struct line line;

    for (number = 1; take_line(&text, &line); number++) {
        changed += (unsigned long)mend_line(&line, number);
        if (line.ended) {
            putchar('\n');
        }
    }
    return changed;
}

/* What is said at the end. */
static void say_changed(unsigned long changed)
{
    if (changed == 0) {
        fprintf(stderr, "box: checks: no line changed\n");
        return;
    }
    fprintf(stderr,
            "box: checks: %lu line%s changed. A wrong check may come of a digit that was mistyped:"
            " look at the words of %s\n",
            changed, changed == 1 ? "" : "s", changed == 1 ? "this line" : "these lines");
}

/* The file on standard input, with its checks made right, on standard output. */
int main(int count, char **words)
{
    unsigned long changed;
    struct text text;
    uint8_t *bytes;

    (void)words;
    if (count != 1) {
        fprintf(stderr, "usage: checks < FILE > FILE\n");
        return 2;
    }
    bytes = read_all(&text.length);
    if (bytes == NULL) {
        fprintf(stderr, "box: checks: the input could not be read\n");
        return 1;
    }
    text.bytes = bytes;
    changed = mend(text);
    free(bytes);
    if (fflush(stdout) != 0 || ferror(stdout)) {
        fprintf(stderr, "box: checks: the file could not be written\n");
        return 1;
    }
    say_changed(changed);
    return 0;
}
