/* The list of changes: one a line, in eleven fields with a tab between them. */
#include "mutants.h"

#include <stdlib.h>
#include <string.h>

/* The crate of a path crates/NAME/src/FILE: the folder that holds src. */
static struct part crate_of(const char *path)
{
    const char *end = strstr(path, "/src/"), *start = end;
    struct part crate = {"", 0};

    while (start != NULL && start > path && start[-1] != '/') {
        start--;
    }
    if (start != NULL) {
        crate.bytes = start;
        crate.length = (size_t)(end - start);
    }
    return crate;
}

/* Reads a file and finds its tokens. */
static void open_source(struct source *source, const char *path)
{
    FILE *file = fopen(path, "rb");

    if (file == NULL) {
        stop(path, "it cannot be opened");
    }
    memset(source, 0, sizeof *source);
    source->path = path;
    source->crate = crate_of(path);
    read_all(file, path, &source->text);
    fclose(file);
    lex(source);
}

/* Whether token i begins the type of a `let`: nothing is changed there. */
static int is_type(const struct source *source, size_t i)
{
    size_t word = is_name(source, i - 2, "mut") ? i - 3 : i - 2;

    return is_symbol(source, i, ":") && is_name(source, word, "let");
}

/* Finds the changes of a function. */
static void search_function(struct book *book, const struct shape *function)
{
    struct search search = {book, function, function->inside.source, {NULL, 0, 0}};
    size_t i = function->body.from;

    find_locals(&search);
    while (i < function->body.to) {
        if (is_type(search.source, i)) {
            i = find_symbol(function->body, i, "=");
            continue;
        }
        change_cuts(&search, i);
        change_signs(&search, i);
        change_words(&search, i);
        change_swaps(&search, i);
        i++;
    }
    free(search.locals.items);
}

/* A change as it is told: the lines that it touches, before and after, and how many before it look the same. */
struct told {
    struct text before;
    struct text after;
    size_t line;
    size_t column;
    size_t alike;
};

/* The whole of a text as a part. */
static struct part all_of(const struct text *text)
{
    struct part part = {text->bytes, text->length};

    return part;
}

/* Tells a change: its place, and the whole lines that it touches, of long lines what stands near. */
static struct told tell(const struct change *change)
{
    const struct text *text = &change->function->inside.source->text;
    struct told told = {{NULL, 0, 0}, {NULL, 0, 0}, 1, 1, 0};
    struct text whole = {NULL, 0, 0};
    size_t i, start = change->at, end = change->at + change->length;

    while (start > 0 && text->bytes[start - 1] != '\n' && change->at - start < TOLD_MOST) {
        start--;
    }
    while (end < text->length && text->bytes[end] != '\n' && end - change->at - change->length < TOLD_MOST) {
        end++;
    }
    for (i = 0; i < change->at; i++) {
        told.column = text->bytes[i] == '\n' ? 1 : told.column + 1;
        told.line += text->bytes[i] == '\n';
    }
    text_put(&whole, text->bytes + start, end - start);
    text_folded(&told.before, all_of(&whole));
    whole.length = change->at - start;
    text_words(&whole, change->new_text);
    text_put(&whole, text->bytes + change->at + change->length, end - change->at - change->length);
    text_folded(&told.after, all_of(&whole));
    text_free(&whole);
    return told;
}

/* Counts the earlier changes of the same function that read the same. */
static size_t alike(const struct book *book, const struct told *all, size_t k)
{
    size_t n, count = 0;

    for (n = k; n > 0 && book->changes[n - 1].function == book->changes[k].function; n--) {
        if (same_part(all_of(&all[n - 1].before), all_of(&all[k].before))
            && same_part(all_of(&all[n - 1].after), all_of(&all[k].after))) {
            count++;
        }
    }
    return count;
}

/* Prints a change: crate, file, line, column, length, kind, function, old and new text, old and new line. The second change of
   a function that reads as the first has (2) after the function's name. */
static void print_change(const struct change *change, const struct told *told)
{
    const struct source *source = change->function->inside.source;
    struct text old = {NULL, 0, 0};
    struct part bytes = {source->text.bytes + change->at, change->length};
    struct part name = change->function->name;

    text_folded(&old, bytes);
    printf("%.*s\t%s\t%lu\t%lu\t%lu\t%s\t%.*s", (int)source->crate.length, source->crate.bytes, source->path,
           (unsigned long)told->line, (unsigned long)told->column, (unsigned long)change->length, change->kind,
           (int)name.length, name.bytes);
    if (told->alike > 0) {
        printf(" (%lu)", (unsigned long)told->alike + 1);
    }
    printf("\t%s\t%s\t%s\t%s\n", old.bytes, change->new_text, told->before.bytes, told->after.bytes);
    text_free(&old);
}

/* Prints all changes in the order in which they were found. */
static void print_changes(const struct book *book)
{
    struct told *all = calloc(book->change_count + 1, sizeof *all);
    size_t k;

    if (all == NULL) {
        stop("memory", "there is none left");
    }
    for (k = 0; k < book->change_count; k++) {
        all[k] = tell(&book->changes[k]);
    }
    for (k = 0; k < book->change_count; k++) {
        all[k].alike = alike(book, all, k);
        print_change(&book->changes[k], &all[k]);
    }
    for (k = 0; k < book->change_count; k++) {
        text_free(&all[k].before);
        text_free(&all[k].after);
    }
    free(all);
}

/* Lists the changes of the files that are named. What a file uses of another is known where that one is named too. */
int command_list(int count, char **paths)
{
    struct book book = {NULL, 0, NULL, 0, 0, NULL, 0, 0};
    size_t k;

    book.source_count = (size_t)count;
    book.sources = calloc(book.source_count, sizeof *book.sources);
    if (book.sources == NULL) {
        stop("memory", "there is none left");
    }
    for (k = 0; k < book.source_count; k++) {
        open_source(&book.sources[k], paths[k]);
        find_shapes(&book, &book.sources[k]);
    }
    for (k = 0; k < book.shape_count; k++) {
        if (book.shapes[k].kind == SHAPE_FUNCTION) {
            search_function(&book, &book.shapes[k]);
        }
    }
    print_changes(&book);
    free_changes(&book);
    for (k = 0; k < book.source_count; k++) {
        text_free(&book.sources[k].text);
        free(book.sources[k].tokens);
    }
    free(book.shapes);
    free(book.sources);
    return 0;
}
