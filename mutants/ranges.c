/* Ranges of tokens: types, and the pieces between commas. */
#include "mutants.h"

/* The tokens from one up to another. */
struct range range_of(const struct source *source, size_t from, size_t to)
{
    struct range range;

    range.source = source;
    range.from = from;
    range.to = to;
    return range;
}

/* No tokens at all. */
struct range no_range(void)
{
    return range_of(NULL, 0, 0);
}

/* The bytes of a range, from its first token to its last. */
struct part range_text(struct range range)
{
    struct part part = {"", 0};
    const struct token *last;

    if (range.from < range.to) {
        part = token_text(range.source, range.from);
        last = &range.source->tokens[range.to - 1];
        part.length = last->at + last->length - range.source->tokens[range.from].at;
    }
    return part;
}

/* Whether two ranges have the same tokens. */
int same_range(struct range a, struct range b)
{
    size_t i;

    if (a.to - a.from != b.to - b.from) {
        return 0;
    }
    for (i = 0; i < a.to - a.from; i++) {
        if (!same_part(token_text(a.source, a.from + i), token_text(b.source, b.from + i))) {
            return 0;
        }
    }
    return 1;
}

/* The piece of a range from a token up to the next comma. */
struct range piece_at(struct range whole, size_t from)
{
    return range_of(whole.source, from, find_symbol(whole, from, ","));
}

/* How many pieces there are; a comma at the end begins none. */
size_t piece_count(struct range whole)
{
    size_t from, count = 0;

    for (from = whole.from; from < whole.to; from = piece_at(whole, from).to + 1) {
        count++;
    }
    return count;
}

/* The piece with this number, from 0; an empty range when there is none. */
struct range piece_number(struct range whole, size_t number)
{
    size_t from = whole.from;

    while (from < whole.to) {
        if (number == 0) {
            return piece_at(whole, from);
        }
        number--;
        from = piece_at(whole, from).to + 1;
    }
    return no_range();
}

/* Takes a piece 'name: type', with any words before the name, apart; 0 when it is none. */
int declared(struct range piece, struct part *name, struct range *type)
{
    size_t colon = find_symbol(piece, piece.from, ":");

    if (colon == piece.from || colon + 1 >= piece.to || piece.source->tokens[colon - 1].sort != SORT_NAME) {
        return 0;
    }
    *name = token_text(piece.source, colon - 1);
    *type = range_of(piece.source, colon + 1, piece.to);
    return 1;
}
