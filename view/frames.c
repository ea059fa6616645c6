/*
 * The frames of a sheet and its tape that are given in sentences: the inverse of words. It judges
 * none of them. Before it prints them it says them back, and compares that with what was given.
 * With --names it prints the names that the sentences give to roles, as --roles takes them.
 */
#include "inputs.h"
#include "sentences.h"

#include <stdlib.h>
#include <string.h>

/* One clear line; the status comes back. */
static int fail(int status, const char *why)
{
    fprintf(stderr, "box: frames: %s\n", why);
    return status;
}

/* The bytes of what counts as a blank: a tab, a return before a line end, a no-break blank. */
static size_t blank_at(const uint8_t *bytes, size_t left)
{
    if (bytes[0] == '\t' || (bytes[0] == '\r' && (left == 1 || bytes[1] == '\n'))) {
        return 1;
    }
    return left >= 2 && bytes[0] == 0xC2 && bytes[1] == 0xA0 ? 2 : 0;
}

/* Puts a blank for each of them; how long the text is then comes back. */
static size_t blank_out(uint8_t *bytes, size_t length)
{
    size_t from = 0, to, blank;

    for (to = 0; from < length; to++) {
        blank = blank_at(bytes + from, length - from);
        bytes[to] = blank > 0 ? ' ' : bytes[from];
        from += blank > 0 ? blank : 1;
    }
    bytes[to] = 0;
    return to;
}

/* The text without the mark that some editors put before it. */
static struct text text_of(const uint8_t *bytes, size_t length)
{
    size_t mark = length >= 3 && memcmp(bytes, "\xEF\xBB\xBF", 3) == 0 ? 3 : 0;
    struct text text;

    text.bytes = bytes + mark;
    text.length = length - mark;
    return text;
}

/* Prints the frames. */
static int print(const struct making *making)
{
    size_t i;

    for (i = 0; i < making->count; i++) {
        printf("%s\n", making->list[i].digits);
    }
    return fflush(stdout) != 0 || ferror(stdout) ? fail(1, "the frames could not be written") : 0;
}

/* Prints the names. */
static int print_names(const struct names *names)
{
    size_t i;

    for (i = 0; i < names->count; i++) {
        printf("%s%u=%s", i == 0 ? "" : ",", names->list[i].role, names->list[i].text);
    }
    printf("\n");
    return fflush(stdout) != 0 || ferror(stdout) ? fail(1, "the names could not be written") : 0;
}

/* Makes the frames of a text, says them back and prints them, or the names. */
static int answer(struct text text, struct making *making, int only_names)
{
    struct names names, given;
    struct reading reading;
    int good;

    memset(&reading, 0, sizeof reading);
    names.count = given.count = 0;
    reading.names = reading.given = &names;
    find_names(&reading, text);
    reading.given = &given;
    good = make_frames(&reading, text, making);
    if (good == 0) {
        return 2;
    }
    if (good < 0) {
        return fail(1, "there is no memory");
    }
    good = said_back(&names, making);
    if (good > 0) {
        good = all_said(&names, making, text);
    }
    if (good < 0) {
        return fail(1, "there is no memory, or no room for a temporary file");
    }
    if (good == 0) {
        return 1;
    }
    return only_names ? print_names(&names) : print(making);
}

/*
 * The frames of the sentences on standard input. The status is 0 when they were printed, 1 when
 * something failed, 2 when what was given is wrong.
 */
int main(int count, char **words)
{
    struct making making;
    uint8_t *bytes;
    size_t length;
    int status, only_names = count == 2 && strcmp(words[1], "--names") == 0;

    if (count != 1 && !only_names) {
        return fail(2, "usage: frames [--names] < SENTENCES > FRAMES");
    }
    bytes = read_all(&length);
    if (bytes == NULL) {
        return fail(1, "the input could not be read");
    }
    length = blank_out(bytes, length);
    memset(&making, 0, sizeof making);
    status = answer(text_of(bytes, length), &making, only_names);
    free(making.list);
    free(bytes);
    return status;
}
