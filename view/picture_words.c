/*
 * The bold words under the title: in which minutes roles that must be apart are open together, or
 * that they never are. A role that never opens is said to be so, for of it that is no wonder.
 */
#include "picture.h"

#include <stdio.h>
#include <string.h>

enum {
    WORDS = 360,
    LINE_WORDS = 560,
    LIST_LINES = 3,
    ROOM = RIGHT - MARGIN - BESIDE,
    TEXT_BYTES = 80,
    LINE_BYTES = 1000
};

/* How the roles that must be apart are called. */
enum manner { BY_NAME, BY_NUMBER, BY_COUNT };

/* Words that fill one line after another. Dry ones are only measured. */
struct words {
    long x; /* where lines begin */
    long y;
    int wet;
    int cut; /* whether some minutes were left out */
    char line[LINE_BYTES];
};

/* Writes the words that fill a line, and empties it. */
static void end_line(struct words *words)
{
    if (words->wet) {
        write_text(words->x, words->y, WORDS, BOLD, words->line);
    }
    words->line[0] = 0;
}

/* How wide the line would be with this after it. */
static long wide_with(const struct words *words, const char *text)
{
    return bold_wide(words->line, WORDS) + bold_wide(text, WORDS) + WORDS;
}

/* Puts a piece that is not broken: it goes to the next line where this one has no room. */
static void put_words(struct words *words, const char *text)
{
    if (words->line[0] != 0 && wide_with(words, text) > RIGHT - words->x) {
        end_line(words);
        words->y += LINE_WORDS;
    }
    if (words->line[0] != 0) {
        strcat(words->line, " ");
    }
    strcat(words->line, text);
}

/* Puts how many there are, from two on. */
static void put_count(struct words *words, size_t count)
{
    static const char *const small[] = {"two", "three", "four", "five", "six", "seven", "eight",
                                        "nine", "ten", "eleven", "twelve"};
    char text[TEXT_BYTES];

    snprintf(text, sizeof text, "%lu", (unsigned long)count);
    put_words(words, count >= 2 && count <= 12 ? small[count - 2] : text);
}

/* Puts the roles of a set, as in 'Adjust, Clean and Release'. */
static void put_roles(struct words *words, const struct board *board, uint64_t set,
                      enum manner manner, const char *join)
{
    size_t i, left = roles_in(set);
    char text[NAME_BYTES + TEXT_BYTES];

    for (i = 0; i < board->count; i++) {
        if (!(set >> board->lane[i].role & 1)) {
            continue;
        }
        left--;
        if (manner == BY_NAME) {
            snprintf(text, sizeof text, "%s%s", board->lane[i].name, left > 1 ? "," : "");
        } else {
            snprintf(text, sizeof text, "%u%s", board->lane[i].role, left > 1 ? "," : "");
        }
        put_words(words, text);
        if (left == 1) {
            put_words(words, join);
        }
    }
}

/* Whether the names of a set have room: together they are no longer than a line. */
static int names_have_room(const struct board *board, uint64_t set)
{
    long wide = 0;
    size_t i;

    for (i = 0; i < board->count; i++) {
        if (set >> board->lane[i].role & 1) {
            wide += bold_wide(board->lane[i].name, WORDS) + WORDS;
        }
    }
    return wide <= ROOM;
}

/* How the roles that must be apart are called. Where others have names too, a count will not do. */
static enum manner manner_of(const struct board *board)
{
    if (board->apart == board->mask && board->count > 2) {
        return BY_COUNT;
    }
    if (names_have_room(board, board->apart)) {
        return BY_NAME;
    }
    return board->apart == board->mask ? BY_COUNT : BY_NUMBER;
}

/* Puts the roles that must be apart. */
static void put_apart(struct words *words, const struct board *board)
{
    enum manner manner = manner_of(board);

    if (manner != BY_COUNT) {
        if (manner == BY_NUMBER) {
            put_words(words, "roles");
        }
        put_roles(words, board, board->apart, manner, "and");
        return;
    }
    put_words(words, "the");
    put_count(words, board->count);
    if (board->count > 2) {
        put_words(words, "named");
    }
}

/* Puts which of the roles that must be apart are never open, or how many where they are many. */
static void put_never(struct words *words, const struct board *board)
{
    uint64_t never = board->apart & ~board->ever;

    if (never == 0) {
        return;
    }
    if (names_have_room(board, never)) {
        put_roles(words, board, never, BY_NAME, "and");
    } else {
        put_count(words, roles_in(never));
        put_words(words, "of these roles");
    }
    put_words(words, roles_in(never) == 1 ? "is never open at all." : "are never open at all.");
}

/* Puts that none of the roles that must be apart is ever open. */
static void put_none(struct words *words, const struct board *board)
{
    int two = roles_in(board->apart) == 2;

    if (two && manner_of(board) == BY_NAME) {
        put_words(words, "neither");
        put_roles(words, board, board->apart, BY_NAME, "nor");
    } else {
        put_words(words, two ? "neither of" : "none of");
        put_apart(words, board);
    }
    put_words(words, "is ever open.");
}

/* Puts that no two of the roles that must be apart are open together. */
static void put_clear(struct words *words, const struct board *board)
{
    int two = roles_in(board->apart) == 2, more = (board->apart & ~board->ever) != 0;

    put_words(words, board->day->count == 1 ? "In this minute" : "In these minutes");
    if ((board->apart & board->ever) == 0) {
        put_none(words, board);
        return;
    }
    if (!two) {
        put_words(words, "no two of");
    }
    put_apart(words, board);
    put_words(words, two ? "are never open" : "are open");
    put_words(words, more ? "together;" : "together.");
    put_never(words, board);
}

/* In how many minutes roles clash, and how many stretches these form. */
static void count_both(const struct board *board, unsigned long *minutes, unsigned long *stretches)
{
    size_t at, end;

    *minutes = 0;
    *stretches = 0;
    for (at = 0; at < board->day->count; at = end) {
        end = both_until(board, at, board->day->count);
        if (both_open(board, at) != 0) {
            *minutes += end - at;
            *stretches += 1;
        }
    }
}

/* Whether a stretch finds room, and after it, unless it is the last, how many more there are. */
static int has_room(const struct words *words, const char *text, const char *more, int last)
{
    return wide_with(words, text) + (last ? 0 : WORDS + bold_wide(more, WORDS))
        <= RIGHT - words->x;
}

/* Puts the stretches in which roles clash, as many as three lines hold; then comes the end. */
static void put_stretches(struct words *words, const struct board *board, unsigned long left,
                          const char *end)
{
    long last = words->y + (LIST_LINES - 1) * LINE_WORDS;
    char text[TEXT_BYTES], more[TEXT_BYTES];
    size_t at, to;

    for (at = 0; left > 0; at = to) {
        to = both_until(board, at, board->day->count);
        if (both_open(board, at) == 0) {
            continue;
        }
        stretch_text(text, sizeof text, at, to);
        strcat(text, left == 1 ? end : ",");
        snprintf(more, sizeof more, "and %lu more: the table at the end has all%s", left, end);
        words->cut = words->y == last && !has_room(words, text, more, left == 1);
        put_words(words, words->cut ? more : text);
        left = words->cut ? 0 : left - 1;
    }
}

/* Puts who is open together, as 'Both are open in'. */
static void put_who(struct words *words, const struct board *board)
{
    int two = roles_in(board->apart) == 2;
    enum manner manner = manner_of(board);

    if (board->apart == board->mask) {
        put_words(words, two ? "Both are open in" : "Two or more are open in");
    } else if (two) {
        if (manner == BY_NUMBER) {
            put_words(words, "Roles");
        }
        put_roles(words, board, board->apart, manner, "and");
        put_words(words, "are both open in");
    } else {
        put_words(words, "Two or more of");
        put_apart(words, board);
        put_words(words, "are open in");
    }
}

/* Puts the minutes in which roles clash, with the hatching before them. */
static void put_clashes(struct words *words, const struct board *board, unsigned long minutes,
                        unsigned long stretches)
{
    char text[TEXT_BYTES];

    if (words->wet) {
        write_hatch_sample(words->x, words->y);
    }
    words->x += BESIDE;
    put_who(words, board);
    snprintf(text, sizeof text, "%lu minute%s:", minutes, minutes == 1 ? "" : "s");
    put_words(words, text);
    put_stretches(words, board, stretches, (board->apart & ~board->ever) != 0 ? ";" : ".");
    put_never(words, board);
}

/* Puts all that is to be said of roles that must be apart. */
static void put_all(struct words *words, const struct board *board)
{
    unsigned long minutes, stretches;

    count_both(board, &minutes, &stretches);
    words->y += LINE_WORDS;
    words->line[0] = 0;
    words->cut = 0;
    if (minutes > 0) {
        put_clashes(words, board, minutes, stretches);
    } else {
        put_clear(words, board);
    }
    end_line(words);
    words->y += 60;
}

/* Whether the words leave out some of the minutes in which roles clash. */
int words_cut(const struct board *board)
{
    struct words words = {MARGIN, 0, 0, 0, ""};

    if (roles_in(board->apart) < 2) {
        return 0;
    }
    put_all(&words, board);
    return words.cut;
}

/* Writes the words below a line at "y", or only measures them; the foot of the last comes back. */
long write_words(const struct board *board, long y, int wet)
{
    struct words words = {MARGIN, 0, 0, 0, ""};

    if (roles_in(board->apart) < 2) {
        return y;
    }
    words.y = y;
    words.wet = wet;
    put_all(&words, board);
    return words.y;
}
