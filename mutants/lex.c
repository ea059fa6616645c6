/* A file of Rattle code as tokens. */
#include "mutants.h"

#include <stdlib.h>
#include <string.h>

/* Whether a byte may stand in a name. */
static int in_name(int c)
{
    return (c >= 'a' && c <= 'z') || (c >= 'A' && c <= 'Z') || (c >= '0' && c <= '9') || c == '_';
}

/* Whether a byte is a decimal digit. */
static int is_digit(int c)
{
    return c >= '0' && c <= '9';
}

/* The byte at i; 0 past the end. */
static int byte_at(const struct source *source, size_t i)
{
    return i < source->text.length ? (unsigned char)source->text.bytes[i] : 0;
}

/* Where a run of bytes of names that begins at i ends. */
static size_t name_end(const struct source *source, size_t i)
{
    while (in_name(byte_at(source, i))) {
        i++;
    }
    return i;
}

/* Where what is between quotes ends; i is the first quote. */
static size_t quote_end(const struct source *source, size_t i)
{
    int quote = byte_at(source, i);

    i++;
    while (i < source->text.length && byte_at(source, i) != quote) {
        i += byte_at(source, i) == '\\' ? 2 : 1;
    }
    return i < source->text.length ? i + 1 : source->text.length;
}

/* Where the blanks and comments from i on end. */
static size_t skip_blanks(const struct source *source, size_t i)
{
    const char *end;

    for (;;) {
        if (i < source->text.length && byte_at(source, i) <= ' ') {
            i++;
        } else if (byte_at(source, i) == '/' && byte_at(source, i + 1) == '/') {
            while (i < source->text.length && byte_at(source, i) != '\n') {
                i++;
            }
        } else if (byte_at(source, i) == '/' && byte_at(source, i + 1) == '*') {
            end = strstr(source->text.bytes + i + 2, "*/");
            i = end == NULL ? source->text.length : (size_t)(end - source->text.bytes) + 2;
        } else {
            return i;
        }
    }
}

/* How long the symbol at i is. */
static size_t symbol_length(const struct source *source, size_t i)
{
    static const char *const longer[] = {"<<=", ">>=", "..=", "==", "!=", "<=", ">=", "&&", "||", "+=", "-=", "*=", "/=",
                                         "%=", "&=", "|=", "^=", "<<", ">>", "->", "=>", "::", ".."};
    size_t k, length = 0;

    while (byte_at(source, i + length) >= 128) {
        length++;
    }
    if (length > 0) {
        return length;
    }
    for (k = 0; k < sizeof longer / sizeof *longer; k++) {
        if (strncmp(source->text.bytes + i, longer[k], strlen(longer[k])) == 0) {
            return strlen(longer[k]);
        }
    }
    return 1;
}

/* The number that begins at i. One with a point is left alone. */
static struct token number_at(const struct source *source, size_t i)
{
    struct token token = {SORT_NUMBER, 0, 0, 0};
    size_t end = name_end(source, i);

    if (byte_at(source, end) == '.' && is_digit(byte_at(source, end + 1))) {
        end = name_end(source, end + 1);
        token.sort = SORT_OTHER;
    }
    token.at = i;
    token.length = end - i;
    return token;
}

/* The quoted byte or the label that begins at i. */
static struct token quote_at(const struct source *source, size_t i)
{
    struct token token = {SORT_OTHER, 0, 0, 0};

    token.at = i;
    if (byte_at(source, i + 1) == '\\' || byte_at(source, i + 2) == '\'') {
        token.length = quote_end(source, i) - i;
    } else {
        token.length = name_end(source, i + 1) - i;
    }
    return token;
}

/* The token that begins at i, which is no blank. */
static struct token token_at(const struct source *source, size_t i)
{
    struct token token = {SORT_SYMBOL, 0, 0, 0};
    int c = byte_at(source, i), next = byte_at(source, i + 1);

    token.at = i;
    if (c == 'b' && (next == '\'' || next == '"')) {
        token.sort = SORT_OTHER;
        token.length = quote_end(source, i + 1) - i;
    } else if (is_digit(c)) {
        token = number_at(source, i);
    } else if (in_name(c)) {
        token.sort = SORT_NAME;
        token.length = name_end(source, i) - i;
    } else if (c == '"') {
        token.sort = SORT_OTHER;
        token.length = quote_end(source, i) - i;
    } else if (c == '\'') {
        token = quote_at(source, i);
    } else {
        token.length = symbol_length(source, i);
    }
    return token;
}

/* The bracket that closes this one; 0 for what opens nothing. */
static int closer(int c)
{
    return c == '(' ? ')' : c == '[' ? ']' : c == '{' ? '}' : 0;
}

/* Gives each bracket its partner. */
static void pair_brackets(struct source *source)
{
    size_t *open = malloc((source->count + 1) * sizeof *open);
    size_t i, depth = 0;
    int c;

    if (open == NULL) {
        stop("memory", "there is none left");
    }
    for (i = 0; i < source->count; i++) {
        source->tokens[i].mate = i;
        c = source->tokens[i].sort == SORT_SYMBOL ? byte_at(source, source->tokens[i].at) : 0;
        if (closer(c) != 0) {
            open[depth++] = i;
        } else if (c == ')' || c == ']' || c == '}') {
            if (depth == 0 || closer(byte_at(source, source->tokens[open[depth - 1]].at)) != c) {
                stop(source->path, "a bracket closes what was not opened");
            }
            depth--;
            source->tokens[i].mate = open[depth];
            source->tokens[open[depth]].mate = i;
        }
    }
    free(open);
    if (depth > 0) {
        stop(source->path, "a bracket is not closed");
    }
}

/* Finds the tokens of a file that was read. */
void lex(struct source *source)
{
    size_t i = skip_blanks(source, 0);

    while (i < source->text.length) {
        if (source->count == source->room) {
            source->tokens = grown(source->tokens, &source->room, sizeof *source->tokens);
        }
        source->tokens[source->count] = token_at(source, i);
        i = skip_blanks(source, i + source->tokens[source->count].length);
        source->count++;
    }
    pair_brackets(source);
}

/* The text of token i; nothing past the last. */
struct part token_text(const struct source *source, size_t i)
{
    struct part part = {"", 0};

    if (i < source->count) {
        part.bytes = source->text.bytes + source->tokens[i].at;
        part.length = source->tokens[i].length;
    }
    return part;
}

/* Whether token i is this symbol. */
int is_symbol(const struct source *source, size_t i, const char *words)
{
    return i < source->count && source->tokens[i].sort == SORT_SYMBOL && part_is(token_text(source, i), words);
}

/* Whether token i is this name. */
int is_name(const struct source *source, size_t i, const char *words)
{
    return i < source->count && source->tokens[i].sort == SORT_NAME && part_is(token_text(source, i), words);
}

/* Whether token i can be the last of an operand: what follows it is then between two operands, or an index. */
int ends_operand(const struct source *source, size_t i)
{
    static const char *const words[] = {"return", "in", "if", "while", "match", "else", "break", "let", "mut", "as"};
    size_t k;

    if (i >= source->count) {
        return 0;
    }
    for (k = 0; k < sizeof words / sizeof *words; k++) {
        if (is_name(source, i, words[k])) {
            return 0;
        }
    }
    return source->tokens[i].sort != SORT_SYMBOL || is_symbol(source, i, ")") || is_symbol(source, i, "]");
}

/* The token after token i, and after its partner where it opens something. */
size_t past(const struct source *source, size_t i)
{
    return (source->tokens[i].mate > i ? source->tokens[i].mate : i) + 1;
}

/* The first such symbol from a token on that stands within no bracket opened there; the range's end when there is none. */
size_t find_symbol(struct range range, size_t from, const char *words)
{
    size_t i = from;

    while (i < range.to) {
        if (is_symbol(range.source, i, words)) {
            return i;
        }
        i = past(range.source, i);
    }
    return range.to;
}
