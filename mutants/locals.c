/* The variables of a function whose type is declared: its parameters, `let x: T`, and `let x = f(..);` where f is known. */
#include "mutants.h"

/* Adds a variable. */
static void add_local(struct locals *locals, struct part name, struct range type, size_t from, size_t to)
{
    struct local local;

    if (locals->count == locals->room) {
        locals->items = grown(locals->items, &locals->room, sizeof *locals->items);
    }
    local.name = name;
    local.type = type;
    local.from = from;
    local.to = to;
    locals->items[locals->count] = local;
    locals->count++;
}

/* The result of the call that is the whole of a range; nothing where it is no call of a known function. */
static struct range result_of(const struct search *search, struct range value)
{
    const struct shape *called;
    size_t i = value.from;

    while (i < value.to && !is_symbol(search->source, i, "(")) {
        if (search->source->tokens[i].sort != SORT_NAME && !is_symbol(search->source, i, "::")) {
            return no_range();
        }
        i++;
    }
    if (i == value.from || i >= value.to || past(search->source, i) != value.to) {
        return no_range();
    }
    called = shape_named(search->book, search->source, SHAPE_FUNCTION, i - 1);
    return called == NULL ? no_range() : called->result;
}

/* The variable of the `let` at token i. Where its type is not known it stands with an empty one, so that it hides others. */
static void add_let(struct search *search, size_t i)
{
    const struct source *source = search->source;
    struct range body = search->function->body, type = no_range();
    size_t name = is_name(source, i + 1, "mut") ? i + 2 : i + 1;
    size_t end = find_symbol(body, i, ";"), equals = find_symbol(body, i, "=");
    size_t close = find_symbol(body, i, "}");

    if (name >= body.to || source->tokens[name].sort != SORT_NAME || equals > end || end > close) {
        return;
    }
    if (is_symbol(source, name + 1, ":")) {
        type = range_of(source, name + 2, equals);
    } else if (equals == name + 1) {
        type = result_of(search, range_of(source, equals + 1, end));
    } else {
        return;
    }
    add_local(&search->locals, token_text(source, name), type, end, close);
}

/* Finds the variables of a function. */
void find_locals(struct search *search)
{
    struct range piece, type, body = search->function->body;
    struct part name;
    size_t i;

    for (i = search->function->inside.from; i < search->function->inside.to; i = piece.to + 1) {
        piece = piece_at(search->function->inside, i);
        if (declared(piece, &name, &type)) {
            add_local(&search->locals, name, type, body.from, body.to);
        }
    }
    for (i = body.from; i < body.to; i++) {
        if (is_name(search->source, i, "let")) {
            add_let(search, i);
        }
    }
}

/* The variable that the name at token i stands for; NULL where it is none, or none of a known type. */
const struct local *local_at(const struct search *search, size_t i)
{
    struct part name = token_text(search->source, i);
    size_t k = search->locals.count;

    while (k > 0) {
        const struct local *local = &search->locals.items[--k];

        if (local->from <= i && i < local->to && same_part(local->name, name)) {
            return local->type.from < local->type.to ? local : NULL;
        }
    }
    return NULL;
}
