/* What files declare: functions, structs and enums. */
#include "mutants.h"

/* Adds what was declared. */
static void add_shape(struct book *book, struct shape shape)
{
    if (book->shape_count == book->shape_room) {
        book->shapes = grown(book->shapes, &book->shape_room, sizeof *book->shapes);
    }
    book->shapes[book->shape_count] = shape;
    book->shape_count++;
}

/* Whether what begins at token i is public. Between the two may stand extern "C". */
static int is_public_at(const struct source *source, size_t i)
{
    size_t back;

    for (back = 1; back <= 3 && back <= i; back++) {
        if (is_name(source, i - back, "pub")) {
            return 1;
        }
    }
    return 0;
}

/* Where the clauses of a contract from token i on end. A clause may have a name. */
static size_t skip_contract(const struct source *source, size_t i)
{
    while (is_name(source, i, "requires") || is_name(source, i, "ensures") || is_name(source, i, "decreases")) {
        i++;
        while (i < source->count && !is_symbol(source, i, "{") && !is_symbol(source, i, "}")) {
            i = past(source, i);
        }
        if (!is_symbol(source, i, "{")) {
            return i;
        }
        i = past(source, i);
    }
    return i;
}

/* Where a type from token i on ends: at a contract, a body, or what ends a declaration. */
static size_t skip_type(const struct source *source, size_t i)
{
    while (i < source->count && !is_symbol(source, i, "{") && !is_symbol(source, i, ";") && !is_symbol(source, i, "}")
           && !is_name(source, i, "requires") && !is_name(source, i, "ensures") && !is_name(source, i, "decreases")) {
        i = past(source, i);
    }
    return i;
}

/* The function whose word fn is token i; what comes back is where to go on. */
static size_t take_function(struct book *book, const struct source *source, size_t i)
{
    struct shape shape = {SHAPE_FUNCTION, {"", 0}, 0, {NULL, 0, 0}, {NULL, 0, 0}, {NULL, 0, 0}};
    size_t open = i + 2, at;

    while (open < source->count && !is_symbol(source, open, "(") && !is_symbol(source, open, "{")
           && !is_symbol(source, open, ";")) {
        open++;
    }
    if (!is_symbol(source, open, "(")) {
        return i + 1;
    }
    shape.name = token_text(source, i + 1);
    shape.is_public = is_public_at(source, i);
    shape.inside = range_of(source, open + 1, source->tokens[open].mate);
    at = past(source, open);
    shape.result = range_of(source, at, at);
    if (is_symbol(source, at, "->")) {
        shape.result = range_of(source, at + 1, skip_type(source, at + 1));
    }
    at = skip_contract(source, shape.result.to);
    shape.body = range_of(source, at, at);
    if (is_symbol(source, at, "{")) {
        shape.body = range_of(source, at + 1, source->tokens[at].mate);
        at = past(source, at);
    }
    add_shape(book, shape);
    return at;
}

/* The struct or enum whose word is token i; what comes back is where to go on. */
static size_t take_type(struct book *book, const struct source *source, size_t i, enum shape_kind kind)
{
    struct shape shape = {SHAPE_STRUCT, {"", 0}, 0, {NULL, 0, 0}, {NULL, 0, 0}, {NULL, 0, 0}};
    size_t open = i + 2;

    if (!is_symbol(source, open, "{") && !is_symbol(source, open, "(")) {
        return i + 1;
    }
    shape.kind = kind;
    shape.name = token_text(source, i + 1);
    shape.is_public = is_public_at(source, i);
    shape.inside = range_of(source, open + 1, source->tokens[open].mate);
    add_shape(book, shape);
    return past(source, open);
}

/* Finds what a file declares. */
void find_shapes(struct book *book, const struct source *source)
{
    size_t i = 0;

    while (i < source->count) {
        if (is_symbol(source, i, "#") && is_symbol(source, i + 1, "[")) {
            i = past(source, i + 1);
        } else if (is_name(source, i, "fn") && i + 1 < source->count && source->tokens[i + 1].sort == SORT_NAME) {
            i = take_function(book, source, i);
        } else if (is_name(source, i, "struct")) {
            i = take_type(book, source, i, SHAPE_STRUCT);
        } else if (is_name(source, i, "enum")) {
            i = take_type(book, source, i, SHAPE_ENUM);
        } else {
            i++;
        }
    }
}

/* What a crate declares under this name; NULL when that is nothing that was read. */
static const struct shape *shape_in_crate(const struct book *book, enum shape_kind kind, struct part crate, struct part name)
{
    size_t k;

    for (k = 0; k < book->shape_count; k++) {
        const struct shape *shape = &book->shapes[k];

        if (shape->kind == kind && same_part(shape->name, name) && same_part(shape->inside.source->crate, crate)) {
            return shape;
        }
    }
    return NULL;
}

/* Whether what `use CRATE::` from token i on brings, one name or several in braces, has this name. */
static int brings(const struct source *source, size_t i, struct part name)
{
    size_t end;

    if (!is_symbol(source, i, "{")) {
        return is_symbol(source, i + 1, ";") && same_part(token_text(source, i), name);
    }
    end = source->tokens[i].mate;
    for (i++; i < end; i++) {
        if (same_part(token_text(source, i), name)) {
            return 1;
        }
    }
    return 0;
}

/* The crate that a file takes a name from, by a line 'use CRATE::NAME;' or 'use CRATE::{NAME, ..};'; nothing where it has no such line. */
static struct part used_from(const struct source *source, struct part name)
{
    struct part none = {"", 0};
    size_t i;

    for (i = 0; i + 4 < source->count; i++) {
        if (is_name(source, i, "use") && is_symbol(source, i + 2, "::") && brings(source, i + 3, name)) {
            return token_text(source, i + 1);
        }
    }
    return none;
}

/* What the name at token i stands for: by its crate where that is written, else of the file's own crate, else by `use`. */
const struct shape *shape_named(const struct book *book, const struct source *source, enum shape_kind kind, size_t i)
{
    struct part name = token_text(source, i);
    const struct shape *found;

    if (i >= 2 && is_symbol(source, i - 1, "::")) {
        return shape_in_crate(book, kind, token_text(source, i - 2), name);
    }
    found = shape_in_crate(book, kind, source->crate, name);
    return found != NULL ? found : shape_in_crate(book, kind, used_from(source, name), name);
}

/* Whether a file can say a declared name with no crate before it. */
int can_name(const struct source *source, const struct shape *shape)
{
    if (shape->inside.source == source) {
        return 1;
    }
    return shape->is_public && same_part(used_from(source, shape->name), shape->inside.source->crate);
}
