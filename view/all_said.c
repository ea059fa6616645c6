/*
 * Whether every line of a file that says something has its frame, in its order, and every name its
 * role. The lines are gone through once more, and nothing is known here of how they were read.
 */
#include "sentences.h"

#include "same_words.h"

#include <stdlib.h>
#include <string.h>

/* What a line says, or that it says nothing. */
enum speech {
    NOTHING,
    A_NAME,
    A_WRONG_NAME,
    A_SENTENCE
};

/* Takes a line 'role 3 is Adjust' off the names; what it is comes back. */
static enum speech heard_name(const struct names *names, const char *at)
{
    const char *name, *is;
    unsigned long long role;
    char clean[NAME_BYTES];

    at += strlen("role ");
    if (!take_value(&at, &role) || !starts(at, " is ")) {
        return A_SENTENCE;
    }
    is = at + strlen(" is ");
    name = role < ROLES_MOST ? name_of_role(names, (unsigned)role) : NULL;
    return name != NULL && clean_name(is, strlen(is), clean) == NULL && strcmp(clean, name) == 0
        ? A_NAME : A_WRONG_NAME;
}

/* What the text of a line says. */
static enum speech heard(const struct names *names, const char *text)
{
    const char *at = after_place(text);

    if (*at == 0) {
        return NOTHING;
    }
    return starts(at, "role ") ? heard_name(names, at) : A_SENTENCE;
}

/* One line says what is amiss; 0 comes back. */
static int amiss(unsigned long number, const char *what)
{
    fprintf(stderr, "box: frames: line %lu: %s\n", number, what);
    return 0;
}

/* Takes a line off the frames that are left; 0 where something is amiss, -1 without memory. */
static int line_said(const struct names *names, const struct making *making,
                     const struct line *line, size_t *next)
{
    char *text = plain((const char *)line->bytes);
    enum speech speech = text == NULL ? NOTHING : heard(names, text);

    if (text == NULL) {
        return -1;
    }
    free(text);
    if (speech == A_SENTENCE) {
        *next += 1;
        return *next <= making->count && making->list[*next - 1].line.bytes == line->bytes;
    }
    return speech != A_WRONG_NAME;
}

/* Whether each line has its frame, and no frame is left. */
int all_said(const struct names *names, const struct making *making, struct text text)
{
    unsigned long number;
    struct line line;
    size_t next = 0;
    int good;

    for (number = 1; take_line(&text, &line); number++) {
        good = line_said(names, making, &line, &next);
        if (good < 0) {
            return -1;
        }
        if (good == 0) {
            return amiss(number, "what was written here has no frame, or its name another role");
        }
    }
    return next == making->count ? 1 : amiss(number, "there are frames that nobody wrote");
}
