/* Words, marks and numbers of a sentence, one after another. */
#include "sentences.h"

#include <ctype.h>
#include <string.h>

static const char decimal[] = "0123456789";

/* Whether a sentence ends here: with its line, or at a comment. */
int ends(const char *at)
{
    return *at == 0 || *at == '\n' || *at == '#';
}

/* Whether a word goes on here. A full stop after a word is not part of it. */
int in_word(const char *at)
{
    int stop = *at == '.' && (ends(at + 1) || at[1] == ' ');

    return !ends(at) && !stop && strchr(" ,:;()", *at) == NULL;
}

/* Takes blanks. */
void skip_blanks(struct reading *reading)
{
    reading->at += strspn(reading->at, " ");
}

/* Whether two letters are the same; small letters and capitals too, where that does not matter. */
static int same_letter(char one, char other, int any_case)
{
    return one == other
        || (any_case && tolower((unsigned char)one) == tolower((unsigned char)other));
}

/*
 * Where a text goes on after a phrase; NULL where the phrase does not stand here. A blank of the
 * phrase stands for any number of blanks, and between words for at least one.
 */
static const char *after_phrase(const char *at, const char *phrase, int any_case)
{
    for (; *phrase != 0; phrase++) {
        if (*phrase != ' ' && !same_letter(*at, *phrase, any_case)) {
            return NULL;
        }
        if (*phrase != ' ') {
            at++;
        } else if (*at != ' ' && in_word(at) && in_word(at - 1)) {
            return NULL;
        } else {
            at += strspn(at, " ");
        }
    }
    return in_word(phrase - 1) && in_word(at) ? NULL : at;
}

/* Whether a phrase stands just here. */
int stands(const char *at, const char *phrase)
{
    return after_phrase(at, phrase, 0) != NULL;
}

/* Whether a phrase comes next. */
int comes(struct reading *reading, const char *phrase)
{
    skip_blanks(reading);
    return stands(reading->at, phrase);
}

/* Whether a phrase comes next but for capitals, where small letters must stand. */
int comes_in_capitals(struct reading *reading, const char *phrase)
{
    return !comes(reading, phrase) && after_phrase(reading->at, phrase, 1) != NULL;
}

/* Takes a phrase. */
int take(struct reading *reading, const char *phrase)
{
    const char *after;

    skip_blanks(reading);
    after = after_phrase(reading->at, phrase, 0);
    if (after == NULL) {
        return 0;
    }
    reading->at = after;
    return 1;
}

/* Takes a phrase that must be there. */
int need(struct reading *reading, const char *phrase, const char *expected)
{
    if (take(reading, phrase)) {
        return 1;
    }
    if (comes_in_capitals(reading, phrase)) {
        return fault(reading, reading->at, "expected '%s', in small letters", phrase);
    }
    return fault(reading, reading->at, "expected %s", expected);
}

/* The end of a sentence, which must be there; what else might be, is said too. */
int need_end(struct reading *reading, const char *other)
{
    skip_blanks(reading);
    if (ends(reading->at)) {
        return 1;
    }
    if (*reading->at == '.') {
        return fault(reading, reading->at, "expected the end of the sentence, which has no full"
                                           " stop");
    }
    return fault(reading, reading->at, "expected the end of the sentence%s", other);
}

/* Whether a clock stands here: digits, a colon and more digits. */
int is_clock(const char *at)
{
    size_t digits = strspn(at, decimal);

    return digits > 0 && at[digits] == ':' && strspn(at + digits + 1, decimal) > 0;
}

/* Takes a number that must be there, and for which a frame must have room. */
int need_number(struct reading *reading, const char *expected, uint32_t most, uint32_t *number)
{
    unsigned long long value = 0;
    size_t i, digits;

    skip_blanks(reading);
    digits = strspn(reading->at, decimal);
    if (digits == 0 || in_word(reading->at + digits) || is_clock(reading->at)) {
        return fault(reading, reading->at, "expected %s", expected);
    }
    for (i = 0; i < digits && value <= most; i++) {
        value = 10 * value + (unsigned long long)(reading->at[i] - '0');
    }
    if (value > most) {
        return fault(reading, reading->at, "expected %s; the frame has room for at most %lu",
                     expected, (unsigned long)most);
    }
    reading->at += digits;
    *number = (uint32_t)value;
    return 1;
}

/* Takes a number that does not matter. */
static int take_any_number(struct reading *reading)
{
    size_t digits;

    skip_blanks(reading);
    digits = strspn(reading->at, decimal);
    reading->at += digits;
    return digits > 0;
}

/* Takes what words puts before a sentence, as 'line 5, periodic 3:', if it is there. */
int need_prefix(struct reading *reading)
{
    static const char wanted[] = "expected ':' after the number of the line, or ', periodic 3:',"
                                 " ', trigger 3:' or ', minute'";

    if (!take(reading, "line")) {
        return 1;
    }
    if (!take_any_number(reading)) {
        return fault(reading, reading->at, "expected the number of a line, as in 'line 5:'");
    }
    if (take(reading, ":")) {
        return 1;
    }
    if (!take(reading, ",")) {
        return fault(reading, reading->at, "%s", wanted);
    }
    if (comes(reading, "minute")) {
        return 1;
    }
    if (!take(reading, "periodic") && !take(reading, "trigger")) {
        return fault(reading, reading->at, "%s", wanted);
    }
    return take_any_number(reading) && take(reading, ":") ? 1
        : fault(reading, reading->at, "expected the number of the row and ':'");
}
