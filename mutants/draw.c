/* The draw: which changes are tried, in which order. The same list, number and seed give the same draw. */
#include "mutants.h"

#include <stdlib.h>

/* A line of the list, whose crate it is, and how many changes of the same place stand before it. */
struct entry {
    struct part line;
    struct part crate;
    size_t rank;
};

/* The lines of a crate, how many there are, and how many of them are asked for. */
struct crate {
    struct part name;
    struct entry *entries;
    size_t count;
    size_t asked;
};

struct draw {
    struct entry *entries;
    size_t entry_count;
    size_t entry_room;
    struct crate *crates;
    size_t crate_count;
    size_t crate_room;
};

/* A number below `most`, which is at least 1; the state moves on. Only arithmetic of 64 bits, so it is the same everywhere. */
static size_t roll(uint64_t *state, size_t most)
{
    uint64_t mixed;

    *state += UINT64_C(0xA24BAED4963EE407);
    mixed = *state;
    mixed = (mixed ^ (mixed >> 33)) * UINT64_C(0xD6E8FEB86659FD93);
    mixed = (mixed ^ (mixed >> 29)) * UINT64_C(0x9FB21C651E98DF25);
    return (size_t)((mixed ^ (mixed >> 32)) % most);
}

/* The state for a seed and a name, so that what one crate draws does not hang on the others. */
static uint64_t state_of(uint64_t seed, struct part name)
{
    uint64_t state = seed;
    size_t i;

    for (i = 0; i < name.length; i++) {
        state = state * UINT64_C(0x100000001B3) + (unsigned char)name.bytes[i];
        (void)roll(&state, 2);
    }
    return state;
}

/* Field `number` of a line of the list, from 0; nothing past the last. */
struct part field_of(struct part line, size_t number)
{
    struct part field = {line.bytes, 0};
    size_t i;

    for (i = 0; i < line.length; i++) {
        if (line.bytes[i] != '\t') {
            field.length++;
        } else if (number == 0) {
            return field;
        } else {
            number--;
            field.bytes = line.bytes + i + 1;
            field.length = 0;
        }
    }
    if (number > 0) {
        field.length = 0;
    }
    return field;
}

/* Whether two changes are of the same bytes of the same file. */
static int same_place(struct part a, struct part b)
{
    size_t k;

    for (k = 1; k <= 4; k++) {
        if (!same_part(field_of(a, k), field_of(b, k))) {
            return 0;
        }
    }
    return 1;
}

/* Takes the lines of the list apart. */
static void split_lines(struct draw *draw, const struct text *text)
{
    size_t i, start = 0;

    for (i = 0; i < text->length; i++) {
        struct entry entry = {{NULL, 0}, {NULL, 0}, 0};

        if (text->bytes[i] != '\n') {
            continue;
        }
        entry.line.bytes = text->bytes + start;
        entry.line.length = i - start;
        entry.crate = field_of(entry.line, 0);
        if (field_of(entry.line, LINE_FIELDS - 2).length == 0) {
            stop("draw", "a line is no change of the list");
        }
        if (draw->entry_count == draw->entry_room) {
            draw->entries = grown(draw->entries, &draw->entry_room, sizeof *draw->entries);
        }
        draw->entries[draw->entry_count] = entry;
        draw->entry_count++;
        start = i + 1;
    }
    if (start < text->length) {
        stop("draw", "the last line has no end");
    }
}

/* Parts the entries into crates: a crate's lines stand together in the list. */
static void part_crates(struct draw *draw)
{
    size_t i;

    for (i = 0; i < draw->entry_count; i++) {
        struct crate crate = {{NULL, 0}, NULL, 0, 0};

        if (i == 0 || !same_part(draw->entries[i].crate, draw->entries[i - 1].crate)) {
            if (draw->crate_count == draw->crate_room) {
                draw->crates = grown(draw->crates, &draw->crate_room, sizeof *draw->crates);
            }
            crate.name = draw->entries[i].crate;
            crate.entries = &draw->entries[i];
            draw->crates[draw->crate_count] = crate;
            draw->crate_count++;
        }
        draw->crates[draw->crate_count - 1].count++;
    }
}

/* Mixes the lines of a crate, and says of each how many of the same place stand before it. */
static void mix(struct crate *crate, uint64_t seed)
{
    uint64_t state = state_of(seed, crate->name);
    size_t i, k;

    for (i = crate->count; i > 1; i--) {
        struct entry entry = crate->entries[i - 1];

        k = roll(&state, i);
        crate->entries[i - 1] = crate->entries[k];
        crate->entries[k] = entry;
    }
    for (i = 0; i < crate->count; i++) {
        crate->entries[i].rank = 0;
        for (k = 0; k < i; k++) {
            crate->entries[i].rank += (size_t)same_place(crate->entries[i].line, crate->entries[k].line);
        }
    }
}

/* Shares the number out: one to each crate in turn, in a mixed order, while it has more. */
static void share(struct draw *draw, uint64_t number, uint64_t seed)
{
    uint64_t state = state_of(seed, part_of("shares"));
    size_t start = draw->crate_count == 0 ? 0 : roll(&state, draw->crate_count), k;
    int given = 1;

    while (given && number > 0) {
        given = 0;
        for (k = 0; k < draw->crate_count && number > 0; k++) {
            struct crate *crate = &draw->crates[(start + k) % draw->crate_count];

            if (crate->asked < crate->count) {
                crate->asked++;
                number--;
                given = 1;
            }
        }
    }
}

/* Prints a crate's lines, the first change of every place before the second of any, each after the number asked for. */
static void print_crate(const struct crate *crate)
{
    size_t i, rank, left = crate->asked == 0 ? 0 : crate->count;

    for (rank = 0; left > 0; rank++) {
        for (i = 0; i < crate->count; i++) {
            if (crate->entries[i].rank == rank) {
                printf("%lu\t%.*s\n", (unsigned long)crate->asked, (int)crate->entries[i].line.length,
                       crate->entries[i].line.bytes);
                left--;
            }
        }
    }
}

/* Draws from the list on standard input. */
int command_draw(uint64_t number, uint64_t seed)
{
    struct draw draw = {NULL, 0, 0, NULL, 0, 0};
    struct text text = {NULL, 0, 0};
    size_t k;

    read_all(stdin, "the list", &text);
    split_lines(&draw, &text);
    part_crates(&draw);
    share(&draw, number, seed);
    for (k = 0; k < draw.crate_count; k++) {
        mix(&draw.crates[k], seed);
        print_crate(&draw.crates[k]);
    }
    free(draw.crates);
    free(draw.entries);
    text_free(&text);
    return 0;
}
