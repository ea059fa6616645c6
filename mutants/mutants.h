/* The changes that can be tried in Rattle code, and what every part of this program shares. */
#ifndef MUTANTS_H
#define MUTANTS_H

#include <stddef.h>
#include <stdint.h>
#include <stdio.h>

enum {
    INPUT_MOST = 16777216,
    CHANGE_MOST = 1000,
    TOLD_MOST = 200,
    LINE_FIELDS = 11
};

/* Bytes that grow; a zero byte always follows them. */
struct text {
    char *bytes;
    size_t length;
    size_t room;
};

/* A stretch of bytes that stand elsewhere. */
struct part {
    const char *bytes;
    size_t length;
};

enum sort {
    SORT_NAME,
    SORT_NUMBER,
    SORT_SYMBOL,
    SORT_OTHER
};

/* A token: its sort, where it stands in the file, and for a bracket which token is its partner. */
struct token {
    enum sort sort;
    size_t at;
    size_t length;
    size_t mate;
};

/* A file of Rattle code in tokens, without blanks and comments. */
struct source {
    const char *path;
    struct part crate;
    struct text text;
    struct token *tokens;
    size_t count;
    size_t room;
};

/* The tokens of a source from one up to another, which is not among them. */
struct range {
    const struct source *source;
    size_t from;
    size_t to;
};

enum shape_kind {
    SHAPE_FUNCTION,
    SHAPE_STRUCT,
    SHAPE_ENUM
};

/* What a file declares. `inside` has a function's parameters, a struct's fields or an enum's cases. Result and body are a
   function's, and empty where it has none. */
struct shape {
    enum shape_kind kind;
    struct part name;
    int is_public;
    struct range inside;
    struct range result;
    struct range body;
};

/* A variable of a function: its declared type, and the tokens between which it may be used. */
struct local {
    struct part name;
    struct range type;
    size_t from;
    size_t to;
};

struct locals {
    struct local *items;
    size_t count;
    size_t room;
};

/* A change: in which function, which bytes of its file go, what comes in their place, and of which kind it is. */
struct change {
    const struct shape *function;
    size_t at;
    size_t length;
    char *new_text;
    const char *kind;
};

/* All that was read, and the changes found. */
struct book {
    struct source *sources;
    size_t source_count;
    struct shape *shapes;
    size_t shape_count;
    size_t shape_room;
    struct change *changes;
    size_t change_count;
    size_t change_room;
};

/* One function under search: the book, the function and its variables. */
struct search {
    struct book *book;
    const struct shape *function;
    const struct source *source;
    struct locals locals;
};

/* text.c */
void stop(const char *what, const char *why);
void *grown(void *items, size_t *room, size_t size);
void text_put(struct text *text, const char *bytes, size_t length);
void text_words(struct text *text, const char *words);
void text_part(struct text *text, struct part part);
void text_folded(struct text *text, struct part part);
void text_free(struct text *text);
void read_all(FILE *file, const char *path, struct text *text);
struct part part_of(const char *words);
int same_part(struct part a, struct part b);
int part_is(struct part part, const char *words);
int decimal(struct part digits, uint64_t *value);

/* lex.c */
void lex(struct source *source);
struct part token_text(const struct source *source, size_t i);
int is_symbol(const struct source *source, size_t i, const char *words);
int is_name(const struct source *source, size_t i, const char *words);
int ends_operand(const struct source *source, size_t i);
size_t past(const struct source *source, size_t i);
size_t find_symbol(struct range range, size_t from, const char *words);

/* ranges.c */
struct range no_range(void);
struct range range_of(const struct source *source, size_t from, size_t to);
struct part range_text(struct range range);
int same_range(struct range a, struct range b);
struct range piece_at(struct range whole, size_t from);
struct range piece_number(struct range whole, size_t number);
size_t piece_count(struct range whole);
int declared(struct range piece, struct part *name, struct range *type);

/* shapes.c */
void find_shapes(struct book *book, const struct source *source);
const struct shape *shape_named(const struct book *book, const struct source *source, enum shape_kind kind, size_t i);
int can_name(const struct source *source, const struct shape *shape);

/* locals.c */
void find_locals(struct search *search);
const struct local *local_at(const struct search *search, size_t i);

/* change.c */
void add_change(struct search *search, struct range old, const char *new_text, const char *kind);
void add_swap(struct search *search, struct range a, struct range b, const char *kind);
void free_changes(struct book *book);

/* signs.c, words.c, swaps.c, cuts.c */
void change_signs(struct search *search, size_t i);
void change_words(struct search *search, size_t i);
void change_swaps(struct search *search, size_t i);
void change_cuts(struct search *search, size_t i);

/* list.c, draw.c, apply.c */
int command_list(int count, char **paths);
int command_draw(uint64_t number, uint64_t seed);
int command_apply(const char *line);
struct part field_of(struct part line, size_t number);

#endif
