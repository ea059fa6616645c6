/* Changes that put two things of one type in each other's places: arguments, fields of a struct, elements of an array. */
#include "mutants.h"

/* The types of what a case of an enum holds; nothing when it is none. */
static struct range held_by(const struct search *search, size_t i)
{
    const struct shape *shape = NULL;
    struct range piece;
    size_t at;

    if (is_symbol(search->source, i - 1, "::")) {
        shape = shape_named(search->book, search->source, SHAPE_ENUM, i - 2);
    }
    if (shape == NULL) {
        return no_range();
    }
    for (at = shape->inside.from; at < shape->inside.to; at = piece.to + 1) {
        piece = piece_at(shape->inside, at);
        if (same_part(token_text(piece.source, piece.from), token_text(search->source, i))
            && is_symbol(piece.source, piece.from + 1, "(")) {
            return range_of(piece.source, piece.from + 2, piece.to - 1);
        }
    }
    return no_range();
}

/* The type of parameter k, or of value k of a case; nothing where it has none. */
static struct range type_number(struct range inside, size_t k, int named)
{
    struct range piece = piece_number(inside, k), type = no_range();
    struct part name;

    if (!named) {
        return piece;
    }
    return piece.from < piece.to && declared(piece, &name, &type) ? type : no_range();
}

/* Swaps each two arguments of one type. The bracket of the call is token open. */
static void swap_arguments(struct search *search, size_t open, struct range inside, int named)
{
    struct range given = range_of(search->source, open + 1, search->source->tokens[open].mate);
    size_t a, b, count = piece_count(given);

    for (a = 0; a < count && count == piece_count(inside); a++) {
        for (b = a + 1; b < count; b++) {
            struct range one = type_number(inside, a, named), other = type_number(inside, b, named);

            if (one.from < one.to && same_range(one, other)) {
                add_swap(search, piece_number(given, a), piece_number(given, b), "operand");
            }
        }
    }
}

/* The arguments of the call, or of the case, whose bracket is token i. */
static void change_arguments(struct search *search, size_t i)
{
    const struct shape *called = shape_named(search->book, search->source, SHAPE_FUNCTION, i - 1);
    struct range held = held_by(search, i - 1);

    if (called != NULL) {
        swap_arguments(search, i, called->inside, 1);
    } else if (held.from < held.to) {
        swap_arguments(search, i, held, 0);
    }
}

/* The type of a struct's field; nothing where it has no such field. */
static struct range field_type(const struct shape *shape, struct part name)
{
    struct range piece, type;
    struct part own;
    size_t at;

    for (at = shape->inside.from; at < shape->inside.to; at = piece.to + 1) {
        piece = piece_at(shape->inside, at);
        if (declared(piece, &own, &type) && same_part(own, name)) {
            return type;
        }
    }
    return no_range();
}

/* Swaps each two values of one type in the struct that is made at the brace i. */
static void change_values(struct search *search, size_t i)
{
    const struct shape *shape = shape_named(search->book, search->source, SHAPE_STRUCT, i - 1);
    struct range given = range_of(search->source, i + 1, search->source->tokens[i].mate), one, other;
    struct part name, second;
    size_t a, b, count = shape == NULL ? 0 : piece_count(given);

    for (a = 0; a < count; a++) {
        for (b = a + 1; b < count; b++) {
            if (declared(piece_number(given, a), &name, &one) && declared(piece_number(given, b), &second, &other)) {
                struct range type = field_type(shape, name);

                if (type.from < type.to && same_range(type, field_type(shape, second))) {
                    add_swap(search, one, other, "field");
                }
            }
        }
    }
}

/* Swaps each two neighbours of the array whose bracket is token i. */
static void change_elements(struct search *search, size_t i)
{
    struct range given = range_of(search->source, i + 1, search->source->tokens[i].mate);
    size_t k, count = piece_count(given);

    for (k = 0; k + 1 < count; k++) {
        add_swap(search, piece_number(given, k), piece_number(given, k + 1), "row");
    }
}

/* The changes of what the bracket at token i holds. */
void change_swaps(struct search *search, size_t i)
{
    const struct source *source = search->source;

    if (is_symbol(source, i, "(") && source->tokens[i - 1].sort == SORT_NAME) {
        change_arguments(search, i);
    } else if (is_symbol(source, i, "{") && source->tokens[i - 1].sort == SORT_NAME) {
        change_values(search, i);
    } else if (is_symbol(source, i, "[") && !ends_operand(source, i - 1)) {
        change_elements(search, i);
    }
}
