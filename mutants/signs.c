/* Changes of a comparison, an operator, a constant, a truth value and a negation. */
#include "mutants.h"

#include <inttypes.h>

/* The token at i as a range of its own. */
static struct range one(const struct search *search, size_t i)
{
    return range_of(search->source, i, i + 1);
}

/* A sign between two operands, what it may become, and of which kind that is. */
struct sign {
    const char *old;
    const char *others[3];
    const char *kind;
};

/* The sign at token i becomes each of its others. */
static void change_sign(struct search *search, size_t i)
{
    static const struct sign signs[] = {
        {"<", {"<=", ">", ">="}, "comparison"},  {"<=", {"<", ">", ">="}, "comparison"},
        {">", {">=", "<", "<="}, "comparison"},  {">=", {">", "<", "<="}, "comparison"},
        {"==", {"!=", NULL, NULL}, "comparison"}, {"!=", {"==", NULL, NULL}, "comparison"},
        {"+", {"-", NULL, NULL}, "operator"},     {"-", {"+", NULL, NULL}, "operator"},
        {"*", {"+", "/", NULL}, "operator"},      {"/", {"*", "%", NULL}, "operator"},
        {"%", {"/", "*", NULL}, "operator"},      {"&", {"|", "^", NULL}, "operator"},
        {"|", {"&", "^", NULL}, "operator"},      {"^", {"|", "&", NULL}, "operator"},
        {"<<", {">>", NULL, NULL}, "operator"},   {">>", {"<<", NULL, NULL}, "operator"},
        {"&&", {"||", NULL, NULL}, "operator"},   {"||", {"&&", NULL, NULL}, "operator"},
        {"+=", {"-=", NULL, NULL}, "operator"},   {"-=", {"+=", NULL, NULL}, "operator"},
        {"*=", {"+=", NULL, NULL}, "operator"},   {"/=", {"*=", NULL, NULL}, "operator"},
        {"|=", {"&=", NULL, NULL}, "operator"},   {"&=", {"|=", NULL, NULL}, "operator"},
        {"<<=", {">>=", NULL, NULL}, "operator"}, {">>=", {"<<=", NULL, NULL}, "operator"}};
    size_t k, n;

    for (k = 0; k < sizeof signs / sizeof *signs; k++) {
        for (n = 0; n < 3 && is_symbol(search->source, i, signs[k].old) && signs[k].others[n] != NULL; n++) {
            add_change(search, one(search, i), signs[k].others[n], signs[k].kind);
        }
    }
}

/* What a digit is worth in a base; the base itself for what is no digit of it. */
static unsigned digit_value(char c, unsigned base)
{
    unsigned value = base;

    if (c >= '0' && c <= '9') {
        value = (unsigned)(c - '0');
    } else if (c >= 'a' && c <= 'f') {
        value = (unsigned)(c - 'a') + 10;
    } else if (c >= 'A' && c <= 'F') {
        value = (unsigned)(c - 'A') + 10;
    }
    return value < base ? value : base;
}

/* The value of a number and how many of its bytes that took: the rest is its type. 0 when it is above 63 bits. */
static int number_value(struct part part, uint64_t *value, size_t *taken)
{
    unsigned base = 10;
    size_t i = 0;

    if (part.length > 2 && part.bytes[0] == '0') {
        base = part.bytes[1] == 'x' ? 16 : part.bytes[1] == 'b' ? 2 : part.bytes[1] == 'o' ? 8 : 10;
        i = base == 10 ? 0 : 2;
    }
    *value = 0;
    while (i < part.length && (part.bytes[i] == '_' || digit_value(part.bytes[i], base) < base)) {
        if (part.bytes[i] != '_') {
            if (*value > (INT64_MAX - 15) / base) {
                return 0;
            }
            *value = *value * base + digit_value(part.bytes[i], base);
        }
        i++;
    }
    *taken = i;
    return 1;
}

/* The number at token i becomes another, and keeps its type. */
static void change_to_number(struct search *search, size_t i, uint64_t value, struct part type)
{
    struct text text = {NULL, 0, 0};
    char digits[32];

    snprintf(digits, sizeof digits, "%" PRIu64, value);
    text_words(&text, digits);
    text_part(&text, type);
    add_change(search, one(search, i), text.bytes, "constant");
    text_free(&text);
}

/* A number becomes one more, one less, and 0. */
static void change_number(struct search *search, size_t i)
{
    struct part part = token_text(search->source, i);
    uint64_t value;
    size_t taken;

    if (is_symbol(search->source, i - 1, ".") || !number_value(part, &value, &taken)) {
        return;
    }
    part.bytes += taken;
    part.length -= taken;
    change_to_number(search, i, value + 1, part);
    if (value > 0) {
        change_to_number(search, i, value - 1, part);
        change_to_number(search, i, 0, part);
    }
}

/* The test of an `if` or a `while` becomes its contrary. */
static void change_test(struct search *search, size_t i)
{
    struct range body = search->function->body;
    struct range test = range_of(search->source, i + 1, find_symbol(body, i + 1, "{"));
    struct text text = {NULL, 0, 0};

    if (test.from >= test.to || test.to >= body.to || is_name(search->source, i + 1, "let")
        || is_symbol(search->source, i + 1, "!")) {
        return;
    }
    text_words(&text, "!(");
    text_part(&text, range_text(test));
    text_words(&text, ")");
    add_change(search, test, text.bytes, "negation");
    text_free(&text);
}

/* The changes of the sign, number or word at token i. */
void change_signs(struct search *search, size_t i)
{
    const struct source *source = search->source;

    if (source->tokens[i].sort == SORT_NUMBER) {
        change_number(search, i);
    } else if (is_name(source, i, "true")) {
        add_change(search, one(search, i), "false", "truth");
    } else if (is_name(source, i, "false")) {
        add_change(search, one(search, i), "true", "truth");
    } else if (is_name(source, i, "if") || is_name(source, i, "while")) {
        change_test(search, i);
    } else if (is_symbol(source, i, "!")) {
        add_change(search, one(search, i), "", "negation");
    } else if (ends_operand(source, i - 1)) {
        change_sign(search, i);
    }
}
