/* Two texts of sentences, word by word, with what a number may be written as. */
#include "same_words.h"

#include "clock.h"

#include <stdio.h>
#include <stdlib.h>
#include <string.h>

static const char decimal[] = "0123456789";

/* A copy of a text up to its end or a comment, with one blank for several and none before marks. */
char *plain(const char *text)
{
    size_t length = strcspn(text, "#\n"), used = 0, i;
    char *copy = malloc(2 * length + 1);
    int clock;

    for (i = 0; copy != NULL && i < length; i++) {
        if (strchr(",;: ", text[i]) == NULL) {
            copy[used++] = text[i];
            continue;
        }
        used -= used > 0 && copy[used - 1] == ' ';
        clock = text[i] == ':' && i > 0 && strchr(decimal, text[i - 1]) != NULL
            && i + 1 < length && strchr(decimal, text[i + 1]) != NULL;
        if (text[i] != ' ') {
            copy[used++] = text[i];
        }
        if (used > 0 && !clock) {
            copy[used++] = ' ';
        }
    }
    if (copy != NULL) {
        copy[used - (used > 0 && copy[used - 1] == ' ')] = 0;
    }
    return copy;
}

/* A sentence without what may stand before it, as 'line 5, periodic 3:'. */
const char *after_place(const char *text)
{
    int length = 0;

    sscanf(text, "line %*[0-9]: %n", &length);
    if (length == 0) {
        sscanf(text, "line %*[0-9], periodic %*[0-9]: %n", &length);
    }
    if (length == 0) {
        sscanf(text, "line %*[0-9], trigger %*[0-9]: %n", &length);
    }
    if (length == 0) {
        sscanf(text, "line %*[0-9], %n", &length);
    }
    return text + length;
}

/* Whether a text begins with another. */
int starts(const char *text, const char *with)
{
    return strncmp(text, with, strlen(with)) == 0;
}

/* Where the word, or the mark, ends that stands here. */
static const char *after_word(const char *at)
{
    size_t length = strcspn(at, " ,:;()");

    return at + (length > 0 || *at == 0 ? length : 1);
}

/* Takes a number, or a clock with its day or without. */
int take_value(const char **at, unsigned long long *value)
{
    char *end;

    if (**at == 0 || strchr(decimal, **at) == NULL) {
        return 0;
    }
    *value = strtoull(*at, &end, 10);
    *at = end;
    if (*end != ':' || end[1] == 0 || strchr(decimal, end[1]) == NULL) {
        return 1;
    }
    *value = HOUR * *value + strtoull(end + 1, &end, 10);
    *at = end;
    if (starts(end, " of day ") && end[8] != 0 && strchr(decimal, end[8]) != NULL) {
        *value += DAY * (strtoull(end + 8, &end, 10) - 1);
        *at = end;
    }
    return 1;
}

/* Takes the name of a period, which stands for its number. */
static int take_period(const char **at, unsigned long long *value)
{
    const char *after = after_word(*at);
    size_t length = (size_t)(after - *at);

    if (length == 3 && starts(*at, "day")) {
        *value = DAY;
    } else if (length == 4 && starts(*at, "week")) {
        *value = WEEK;
    } else if (length == 4 && starts(*at, "hour")) {
        *value = HOUR;
    } else {
        return 0;
    }
    *at = after;
    return 1;
}

/* Takes a word, a mark or a number off both texts, if it is the same. */
int take_same(const char **said, const char **given)
{
    const char *one = *said, *other = *given, *after = after_word(one);
    unsigned long long first, second;

    if (take_value(&one, &first)) {
        if (!(take_value(&other, &second) || take_period(&other, &second)) || first != second) {
            return 0;
        }
        *said = one;
        *given = other;
        return 1;
    }
    if (after - one != after_word(other) - other
        || memcmp(one, other, (size_t)(after - one)) != 0) {
        return 0;
    }
    *given += after - one;
    *said = after;
    return 1;
}

/* Whether two parts of texts are the same, number for number and word for word. */
int same_part(const char *said, const char *said_end, const char *given, const char *given_end)
{
    for (;;) {
        said += strspn(said, " ");
        given += strspn(given, " ");
        if (said >= said_end || given >= given_end) {
            return said >= said_end && given >= given_end;
        }
        if (!take_same(&said, &given)) {
            return 0;
        }
    }
}
