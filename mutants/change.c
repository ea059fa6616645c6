/* Changes as they are found. */
#include "mutants.h"

#include <stdlib.h>
#include <string.h>

/* Whether a part is too long to be told in one line, or has a comment in it; such code is left alone. */
static int is_untold(struct part part)
{
    size_t i;

    if (part.length > CHANGE_MOST) {
        return 1;
    }
    for (i = 0; i + 1 < part.length; i++) {
        if (part.bytes[i] == '/' && (part.bytes[i + 1] == '/' || part.bytes[i + 1] == '*')) {
            return 1;
        }
    }
    return 0;
}

/* Whether the same bytes of the same function already change to the same text. */
static int is_known(const struct search *search, size_t at, size_t length, const char *new_text)
{
    size_t k = search->book->change_count;

    while (k > 0) {
        const struct change *change = &search->book->changes[--k];

        if (change->function != search->function) {
            return 0;
        }
        if (change->at == at && change->length == length && strcmp(change->new_text, new_text) == 0) {
            return 1;
        }
    }
    return 0;
}

/* Adds the change of a range to a new text. */
void add_change(struct search *search, struct range old, const char *new_text, const char *kind)
{
    struct book *book = search->book;
    struct part part = range_text(old);
    struct text folded = {NULL, 0, 0};
    struct change change;

    text_folded(&folded, part_of(new_text));
    change.function = search->function;
    change.at = (size_t)(part.bytes - search->source->text.bytes);
    change.length = part.length;
    change.new_text = folded.bytes;
    change.kind = kind;
    if (is_untold(part) || part_is(part, folded.bytes) || is_known(search, change.at, change.length, folded.bytes)) {
        text_free(&folded);
        return;
    }
    if (book->change_count == book->change_room) {
        book->changes = grown(book->changes, &book->change_room, sizeof *book->changes);
    }
    book->changes[book->change_count] = change;
    book->change_count++;
}

/* Adds the change that puts each of two ranges in the other's place; a stands before b. */
void add_swap(struct search *search, struct range a, struct range b, const char *kind)
{
    struct text text = {NULL, 0, 0};
    struct part first = range_text(a), second = range_text(b), between;

    if (a.from == a.to || b.from == b.to || same_range(a, b)) {
        return;
    }
    between.bytes = first.bytes + first.length;
    between.length = (size_t)(second.bytes - between.bytes);
    text_part(&text, second);
    text_part(&text, between);
    text_part(&text, first);
    add_change(search, range_of(a.source, a.from, b.to), text.bytes, kind);
    text_free(&text);
}

/* Lets go of all changes. */
void free_changes(struct book *book)
{
    size_t k;

    for (k = 0; k < book->change_count; k++) {
        free(book->changes[k].new_text);
    }
    free(book->changes);
}
