/* The commands of the second program. */
#include "second.h"

#include <stdio.h>
#include <stdlib.h>
#include <string.h>

/* A command without numbers behind it. */
struct command {
    const char *name;
    int (*run)(void);
};

static const struct command commands[] = {
    {"day", command_day}, {"sheet", command_sheet},
    {"read", command_read}, {"step", command_step}, {"write", command_write},
    {"line", command_line}, {"kinds", command_kinds}, {"examples", command_examples}
};

/* Says how the program is used; the status for misuse comes back. */
static int usage(void)
{
    fprintf(stderr,
            "usage: second day | sheet | read | step | write | line | kinds | examples\n"
            "       second gen SEED KIND [N]\n"
            "       second brute N [SEED]\n"
            "       second rounds N [SEED]\n");
    return 2;
}

/* Takes a decimal number of at most 18 digits; 0 when it is none. */
static int decimal(const char *digits, uint64_t *value)
{
    size_t i, length = strlen(digits);

    if (length == 0 || length > 18) {
        return 0;
    }
    *value = 0;
    for (i = 0; i < length; i++) {
        if (digits[i] < '0' || digits[i] > '9') {
            return 0;
        }
        *value = 10 * *value + (uint64_t)(digits[i] - '0');
    }
    return 1;
}

/* The commands with numbers behind them. */
static int numbered(int count, char **words)
{
    uint64_t one = 0, other = 1;

    if (strcmp(words[1], "gen") == 0 && (count == 4 || count == 5)) {
        if (decimal(words[2], &one) && (count == 4 || decimal(words[4], &other))) {
            return command_gen(one, words[3], other);
        }
        return usage();
    }
    if ((count != 3 && count != 4) || !decimal(words[2], &one)
        || (count == 4 && !decimal(words[3], &other))) {
        return usage();
    }
    if (strcmp(words[1], "brute") == 0) {
        return command_brute(one, other);
    }
    return strcmp(words[1], "rounds") == 0 ? command_rounds(one, other) : usage();
}

/* Chooses the command. */
static int choose(int count, char **words)
{
    size_t i;

    if (count < 2) {
        return usage();
    }
    for (i = 0; count == 2 && i < sizeof commands / sizeof commands[0]; i++) {
        if (strcmp(words[1], commands[i].name) == 0) {
            return commands[i].run();
        }
    }
    return numbered(count, words);
}

/* Runs the command and makes sure that its output was written. */
int main(int count, char **words)
{
    int status = choose(count, words);

    if (fflush(stdout) != 0) {
        fprintf(stderr, "second: cannot write\n");
        return 2;
    }
    return status;
}
