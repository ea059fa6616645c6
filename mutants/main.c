/* The commands of this program, which finds changes that can be tried in Rattle code. */
#include "mutants.h"

#include <string.h>

/* Says how the program is used; the status for misuse comes back. */
static int usage(void)
{
    fprintf(stderr,
            "usage: mutants list FILE...      the changes that can be tried, one a line\n"
            "       mutants draw N SEED       N of the list on standard input, and what may replace them, crate by crate\n"
            "       mutants apply LINE        the file of a line of the list, with its change\n");
    return 2;
}

/* Chooses the command. */
static int choose(int count, char **words)
{
    uint64_t number = 0, seed = 0;

    if (count >= 3 && strcmp(words[1], "list") == 0) {
        return command_list(count - 2, words + 2);
    }
    if (count == 4 && strcmp(words[1], "draw") == 0) {
        if (decimal(part_of(words[2]), &number) && decimal(part_of(words[3]), &seed)) {
            return command_draw(number, seed);
        }
    }
    if (count == 3 && strcmp(words[1], "apply") == 0) {
        return command_apply(words[2]);
    }
    return usage();
}

/* Runs the command and makes sure that its output was written. */
int main(int count, char **words)
{
    int status = choose(count, words);

    if (fflush(stdout) != 0 || ferror(stdout)) {
        fprintf(stderr, "mutants: cannot write\n");
        return 1;
    }
    return status;
}
