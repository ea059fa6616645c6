/*
 * Whether two sentences say the same: one as words says it, with all its parts, and one as a person
 * gave it, who may leave parts out and write a clock for a number. The two texts are gone through
 * side by side, and nothing is known here of how a sentence was read.
 */
#include "sentences.h"

#include "same_words.h"

#include <stdlib.h>
#include <string.h>

/* Two texts, each from where it still is to be compared. */
struct pair {
    const char *said, *given;
    const struct names *names;
    const char *run;            /* of said: what follows the last 'minute' or 'minutes', */
    const char *number, *after; /* and the last number, and where it ends */
    int in_conditions;          /* whether 'and' stands between conditions */
};

static const char decimal[] = "0123456789";

/* Whether what a person gave in brackets is so: the clocks of a number or of a run, or a rule. */
static int is_so(const struct pair *pair, const char *from, const char *to)
{
    static const char rule[] = "counted from minute 0";

    return same_part(rule, rule + strlen(rule), from, to)
        || (pair->number != NULL && same_part(pair->number, pair->after, from, to))
        || (pair->run != NULL && same_part(pair->run, pair->after, from, to));
}

/* Takes brackets, which may be left out; those that were given must be said or be so. */
static int take_brackets(struct pair *pair)
{
    const char *said_end = strchr(pair->said, ')'), *given_end = strchr(pair->given, ')');
    int both = *pair->said == '(' && *pair->given == '(';

    if (both && said_end != NULL && given_end != NULL
        && same_part(pair->said, said_end, pair->given, given_end)) {
        pair->given = given_end + 1;
        pair->said = said_end + 1;
        return 1;
    }
    if (*pair->said == '(') {
        pair->said = said_end == NULL ? pair->said : said_end + 1;
        return said_end != NULL;
    }
    if (given_end == NULL || !is_so(pair, pair->given + 1, given_end)) {
        return 0;
    }
    pair->given = given_end + 1;
    return 1;
}

/* Where a phrase stands in a text, and no longer word; NULL where it does not. */
static const char *find(const char *text, const char *phrase)
{
    size_t length = strlen(phrase);
    const char *at = strstr(text, phrase);

    while (at != NULL && at[length] != 0 && strchr(" ,:", at[length]) == NULL) {
        at = strstr(at + 1, phrase);
    }
    return at;
}

/* The role that stands here, by its number or its name, up to where the sentence goes on. */
static int take_role(const char **at, const struct names *names, unsigned long long *role)
{
    static const char *const next[] = {" at priority", " and enable", " and disable", " is enabled",
                                       " is not enabled"};
    const char *end = *at + strcspn(*at, ",:"), *found;
    char name[NAME_BYTES];
    unsigned named;
    size_t i;

    for (i = 0; i < sizeof next / sizeof next[0]; i++) {
        found = find(*at, next[i]);
        end = found != NULL && found < end ? found : end;
    }
    if (clean_name(*at, (size_t)(end - *at), name) == NULL) {
        *at = end;
        *role = role_of_name(names, name, &named) ? named : ROLES_MOST;
        return *role < ROLES_MOST;
    }
    *at += starts(*at, "role ") ? 5 : 0;
    return take_value(at, role) && *at == end;
}

/* Takes a role, of which one text may have the name and the other the number. */
static int take_same_role(struct pair *pair)
{
    unsigned long long first, second;

    pair->said += strspn(pair->said, " ");
    pair->given += strspn(pair->given, " ");
    return take_role(&pair->said, pair->names, &first)
        && take_role(&pair->given, pair->names, &second) && first == second;
}

/* Whether a name of the header comes next, as '; role 3 is Adjust'. */
static int is_name(const char *at)
{
    return starts(at, "; role ") || starts(at, ", role ");
}

/* Takes a name of the header off both texts, or off the said one where it was not given there. */
static void take_name(struct pair *pair)
{
    const char *said = pair->said + strlen("; role "), *given = pair->given;
    unsigned long long first, second;
    size_t length;

    pair->said = said + strcspn(said, ",");
    if (!is_name(given)) {
        return;
    }
    given += strlen("; role ");
    if (take_value(&said, &first) && take_value(&given, &second) && first == second) {
        length = (size_t)(pair->said - said);
        pair->given = strcspn(given, ",") == length && memcmp(said, given, length) == 0
            ? given + length : pair->given;
    }
}

/* Takes what may be left out, where it was; 0 where nothing was. */
static int take_left_out(struct pair *pair)
{
    static const char counted[] = "; its periodic rows and its triggers are each counted from 0";

    if (starts(pair->said, counted) && !starts(pair->given, "; its")) {
        pair->said += strlen(counted);
        return 1;
    }
    if (is_name(pair->said)) {
        take_name(pair);
        return 1;
    }
    if (*pair->given == 0
        && (strcmp(pair->said, ", from minute 0 on") == 0
            || strcmp(pair->said, ", in the same minute") == 0
            || starts(pair->said, ", which has "))) {
        pair->said += strlen(pair->said);
        return 1;
    }
    return 0;
}

static int take_next(struct pair *pair);

/* Takes 'every minute' where it was given as 'minute 0 of every 1'. */
static int take_every_minute(struct pair *pair)
{
    struct pair part = *pair;

    part.said = "minute 0 of every 1";
    while (*part.said != 0) {
        if (!take_next(&part)) {
            return 0;
        }
    }
    pair->given = part.given;
    pair->said += strlen("every minute");
    return 1;
}

/* Whether a word is this one. */
static int is_word(const char *from, const char *to, const char *word)
{
    return (size_t)(to - from) == strlen(word) && memcmp(from, word, (size_t)(to - from)) == 0;
}

/* Keeps what later brackets may speak of, and takes the role that follows some words. */
static int go_on(struct pair *pair, const char *from)
{
    const char *to = pair->said;

    if (strchr(decimal, *from) != NULL) {
        pair->number = from;
        pair->after = to;
    } else if (is_word(from, to, "minute") || is_word(from, to, "minutes")) {
        pair->run = to;
    } else if (is_word(from, to, "while") || is_word(from, to, ":")) {
        pair->in_conditions = *from == 'w';
    }
    if (is_word(from, to, "enable") || is_word(from, to, "disable") || is_word(from, to, "while")
        || (pair->in_conditions && is_word(from, to, "and"))) {
        return take_same_role(pair);
    }
    return 1;
}

/* Takes what comes next off both texts. */
static int take_next(struct pair *pair)
{
    const char *from;

    pair->said += strspn(pair->said, " ");
    pair->given += strspn(pair->given, " ");
    if (*pair->said == '(' || *pair->given == '(') {
        return take_brackets(pair);
    }
    if (starts(pair->said, "every minute") && starts(pair->given, "minute ")) {
        return take_every_minute(pair);
    }
    if (take_left_out(pair)) {
        return 1;
    }
    if (strcmp(pair->said, ", in the same minute") == 0 && starts(pair->given, ", after ")) {
        pair->said = ", after 0 minutes";
    }
    from = pair->said;
    return *from != 0 && take_same(&pair->said, &pair->given) && go_on(pair, from);
}

/* Whether two texts without what stands before their sentences say the same. */
static int same_sentences(const char *said, const char *given, const struct names *names)
{
    struct pair pair = {NULL, NULL, NULL, NULL, NULL, NULL, 0};

    pair.said = said;
    pair.given = given;
    pair.names = names;
    while (*pair.said != 0 || *pair.given != 0) {
        if (!take_next(&pair)) {
            return 0;
        }
    }
    return 1;
}

/* Whether two sentences say the same; -1 where there is no memory. */
int same_words(const char *said, const char *given, const struct names *names)
{
    char *one = plain(said), *other = plain(given);
    int same = -1;

    if (one != NULL && other != NULL) {
        same = same_sentences(after_place(one), after_place(other), names);
    }
    free(one);
    free(other);
    return same;
}
