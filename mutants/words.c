/* Changes of a name: another variable, another field, another case of an enum, another function. */
#include "mutants.h"

/* The name at token i becomes another. */
static void rename_at(struct search *search, size_t i, struct part name, const char *kind)
{
    struct text text = {NULL, 0, 0};

    text_part(&text, name);
    add_change(search, range_of(search->source, i, i + 1), text.bytes, kind);
    text_free(&text);
}

/* Whether the variable at token i is assigned to. */
static int is_assigned(const struct source *source, size_t i)
{
    static const char *const signs[] = {"=", "+=", "-=", "*=", "/=", "%=", "&=", "|=", "^=", "<<=", ">>="};
    size_t k;

    for (k = 0; k < sizeof signs / sizeof *signs; k++) {
        if (is_symbol(source, i + 1, signs[k])) {
            return 1;
        }
    }
    return 0;
}

/* A variable becomes another of the same declared type. One that is assigned to is left alone. */
static void change_variable(struct search *search, size_t i)
{
    const struct local *own = local_at(search, i);
    size_t k;

    if (own == NULL || is_assigned(search->source, i)) {
        return;
    }
    for (k = 0; k < search->locals.count; k++) {
        const struct local *other = &search->locals.items[k];

        if (other != own && other->from <= i && i < other->to && same_range(own->type, other->type)) {
            rename_at(search, i, other->name, "operand");
        }
    }
}

/* The struct of the variable at token i, which may be lent; NULL when it is none. */
static const struct shape *struct_of(const struct search *search, size_t i)
{
    const struct local *local = local_at(search, i);
    size_t last;

    if (local == NULL) {
        return NULL;
    }
    last = local->type.to - 1;
    return shape_named(search->book, local->type.source, SHAPE_STRUCT, last);
}

/* The field at token i becomes another of the same type. */
static void change_field(struct search *search, size_t i)
{
    const struct shape *shape = struct_of(search, i - 2);
    struct range piece, type, other = no_range();
    struct part name;
    size_t at;
    int known = 0;

    if (shape == NULL) {
        return;
    }
    for (at = shape->inside.from; at < shape->inside.to; at = piece.to + 1) {
        piece = piece_at(shape->inside, at);
        if (declared(piece, &name, &type) && same_part(name, token_text(search->source, i))) {
            other = type;
            known = 1;
        }
    }
    for (at = shape->inside.from; known && at < shape->inside.to; at = piece.to + 1) {
        piece = piece_at(shape->inside, at);
        if (declared(piece, &name, &type) && same_range(type, other)) {
            rename_at(search, i, name, "field");
        }
    }
}

/* Whether the case whose name is token i stands in a pattern: after it comes what a pattern has. */
static int in_pattern(const struct search *search, size_t i)
{
    size_t next = i + 1;

    if (is_symbol(search->source, next, "(") || is_symbol(search->source, next, "{")) {
        next = past(search->source, next);
    }
    return is_symbol(search->source, next, "=>") || is_symbol(search->source, next, "=")
           || is_symbol(search->source, next, "|");
}

/* The case at token i becomes another of its enum that holds the same. */
static void change_case(struct search *search, size_t i)
{
    const struct shape *shape = shape_named(search->book, search->source, SHAPE_ENUM, i - 2);
    struct range piece, rest = no_range();
    size_t at;
    int known = 0;

    if (shape == NULL || in_pattern(search, i)) {
        return;
    }
    for (at = shape->inside.from; at < shape->inside.to; at = piece.to + 1) {
        piece = piece_at(shape->inside, at);
        if (same_part(token_text(piece.source, piece.from), token_text(search->source, i))) {
            rest = range_of(piece.source, piece.from + 1, piece.to);
            known = 1;
        }
    }
    for (at = shape->inside.from; known && at < shape->inside.to; at = piece.to + 1) {
        piece = piece_at(shape->inside, at);
        if (piece.from < piece.to && same_range(rest, range_of(piece.source, piece.from + 1, piece.to))) {
            rename_at(search, i, token_text(piece.source, piece.from), "case");
        }
    }
}

/* Whether two functions take the same types and give the same. */
static int same_types(const struct shape *a, const struct shape *b)
{
    struct part name;
    struct range one, other;
    size_t k, count = piece_count(a->inside);

    if (count != piece_count(b->inside) || !same_range(a->result, b->result)) {
        return 0;
    }
    for (k = 0; k < count; k++) {
        if (!declared(piece_number(a->inside, k), &name, &one) || !declared(piece_number(b->inside, k), &name, &other)
            || !same_range(one, other)) {
            return 0;
        }
    }
    return 1;
}

/* The call at token i becomes one of another function of the same types that can be named in its place. */
static void change_call(struct search *search, size_t i)
{
    const struct shape *called = shape_named(search->book, search->source, SHAPE_FUNCTION, i);
    int by_crate = is_symbol(search->source, i - 1, "::");
    size_t k;

    for (k = 0; called != NULL && k < search->book->shape_count; k++) {
        const struct shape *other = &search->book->shapes[k];
        int fits = by_crate ? other->is_public && same_part(other->inside.source->crate, called->inside.source->crate)
                            : can_name(search->source, other);

        if (fits && other->kind == SHAPE_FUNCTION && other != called && other != search->function
            && same_types(called, other)) {
            rename_at(search, i, other->name, "call");
        }
    }
}

/* The changes of the name at token i. */
void change_words(struct search *search, size_t i)
{
    const struct source *source = search->source;

    if (source->tokens[i].sort != SORT_NAME || is_symbol(source, i + 1, "::")) {
        return;
    }
    if (is_symbol(source, i + 1, "(")) {
        change_call(search, i);
    }
    if (is_symbol(source, i - 1, ".")) {
        if (!is_symbol(source, i - 3, ".") && !is_symbol(source, i + 1, "(")) {
            change_field(search, i);
        }
    } else if (is_symbol(source, i - 1, "::")) {
        change_case(search, i);
    } else if (!is_symbol(source, i + 1, "(") && !is_symbol(source, i + 1, ":")) {
        change_variable(search, i);
    }
}
