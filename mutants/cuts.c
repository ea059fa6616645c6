/* Changes that drop a statement, and those of an index or of a part of a slice. */
#include "mutants.h"

/* Whether token i can begin a statement that may be dropped: a word for a block, a name or a mark does not. */
static int begins_statement(const struct search *search, size_t i)
{
    static const char *const words[] = {"let", "if", "else", "while", "for", "loop", "match", "fn", "use", "const"};
    const struct source *source = search->source;
    int after = is_symbol(source, i - 1, ";") || is_symbol(source, i - 1, "{") || is_symbol(source, i - 1, "}");
    size_t k;

    if (!after) {
        return 0;
    }
    for (k = 0; k < sizeof words / sizeof *words; k++) {
        if (is_name(source, i, words[k])) {
            return 0;
        }
    }
    return source->tokens[i].sort == SORT_NAME || is_symbol(source, i, "*");
}

/* The statement that begins at token i goes, up to its semicolon. */
static void drop_statement(struct search *search, size_t i)
{
    struct range body = search->function->body;
    size_t end = find_symbol(body, i, ";");
    size_t block = find_symbol(body, i, "}");

    if (end < block) {
        add_change(search, range_of(search->source, i, end + 1), "", "dropped");
    }
}

/* The range with " + 1" or " - 1" after it, in brackets where it is more than a token. A number alone changes as a constant. */
static void shift(struct search *search, struct range range, const char *by)
{
    struct text text = {NULL, 0, 0};
    int single = range.to == range.from + 1;

    if (range.from >= range.to || (single && range.source->tokens[range.from].sort == SORT_NUMBER)) {
        return;
    }
    text_words(&text, single ? "" : "(");
    text_part(&text, range_text(range));
    text_words(&text, single ? "" : ")");
    text_words(&text, by);
    add_change(search, range, text.bytes, "row");
    text_free(&text);
}

/* The index at the bracket i becomes the next one; a part of a slice starts one later, and ends one earlier. */
static void change_index(struct search *search, size_t i)
{
    const struct source *source = search->source;
    struct range inside = range_of(source, i + 1, source->tokens[i].mate);
    size_t dots = find_symbol(inside, inside.from, "..");

    if (dots == inside.to) {
        shift(search, inside, " + 1");
        return;
    }
    shift(search, range_of(source, inside.from, dots), " + 1");
    shift(search, range_of(source, dots + 1, inside.to), " - 1");
}

/* The changes that drop or shift what begins at token i. */
void change_cuts(struct search *search, size_t i)
{
    if (begins_statement(search, i)) {
        drop_statement(search, i);
    }
    if (is_symbol(search->source, i, "[") && ends_operand(search->source, i - 1)) {
        change_index(search, i);
    }
}
