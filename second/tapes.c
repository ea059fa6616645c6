/* Tapes at the edges of each limit and with every refusal. */
#include "gen.h"

#include <string.h>

enum { TAPE_EDGES = 48 };

/* How many edges of tapes there are. */
uint32_t tape_edges(void)
{
    return TAPE_EDGES;
}

/* Adds a request at the end of a tape. */
static void add_request(struct dice *dice, struct book *book, uint32_t instant)
{
    struct tape *tape = &book->tape;

    tape->instants[tape->count] = instant;
    tape->requests[tape->count] = good_request(dice, book->role_count);
    tape->count++;
    if (tape->last < instant) {
        tape->last = instant;
    }
}

/* Adds so many requests of one instant at the end of a tape. */
static void add_requests(struct dice *dice, struct book *book, uint32_t instant, uint32_t count)
{
    uint32_t i;

    for (i = 0; i < count; i++) {
        add_request(dice, book, instant);
    }
}

/* Tapes with many requests of one instant, or with instants that go down. */
static void instant_edge(struct dice *dice, struct book *book, uint32_t which)
{
    struct tape *tape = &book->tape;
    uint32_t t = (tape->count > 0 ? tape->instants[tape->count - 1] : 0) + 1 + below(dice, 5);

    if (which == 0) {
        add_requests(dice, book, t, 32);
    } else if (which == 1) {
        add_requests(dice, book, t, 33);
    } else if (which == 2) {
        add_requests(dice, book, t, 33);
        tape->requests[tape->count - 1].event = 255;
    } else if (which == 3) {
        add_requests(dice, book, t, 32);
        add_requests(dice, book, t + 1, 32);
    } else if (which == 4) {
        add_requests(dice, book, t, 32);
        add_request(dice, book, t - 1);
    } else if (which == 5) {
        add_requests(dice, book, t, 20);
        add_request(dice, book, t + 1);
        add_requests(dice, book, t, 20);
    } else if (which == 6) {
        add_request(dice, book, t);
        add_request(dice, book, t - 1);
        tape->requests[tape->count - 1].priority = 16;
    } else if (which == 7) {
        add_requests(dice, book, t, 40);
    } else {
        add_request(dice, book, t + 255);
        add_request(dice, book, t);
    }
}

/* Tapes with last instants and requests at and over the limits of instants. */
static void last_edge(struct dice *dice, struct book *book, uint32_t which)
{
    struct tape *tape = &book->tape;

    if (which == 0) {
        tape->last = 10080;
    } else if (which == 1) {
        tape->last = 10081;
    } else if (which == 2) {
        tape->last = UINT32_MAX;
    } else if (which == 3) {
        add_request(dice, book, tape->last + 1);
        tape->last--;
    } else if (which == 4) {
        add_request(dice, book, tape->last + 1);
    } else if (which == 5) {
        add_request(dice, book, 10081);
        tape->last = 10080;
    } else if (which == 6) {
        add_request(dice, book, UINT32_MAX);
        tape->last = 10080;
    } else if (which == 7) {
        add_requests(dice, book, UINT32_MAX, 2);
    } else if (which == 8) {
        add_request(dice, book, 16777216);
        tape->last = below(dice, 100);
    } else {
        tape->count = 0;
        tape->last = which == 9 ? 0 : 65536 + below(dice, 100);
    }
}

/* Tapes with one request at or over a limit of its fields. */
static void request_edge(struct dice *dice, struct book *book, uint32_t which)
{
    struct tape *tape = &book->tape;
    struct request *request;

    if (tape->count == 0) {
        add_request(dice, book, tape->last);
    }
    request = &tape->requests[below(dice, (uint32_t)tape->count)];
    switch (which) {
    case 0:
        request->event = (uint8_t)(2 * book->role_count - 1);
        break;
    case 1:
        request->event = (uint8_t)(2 * book->role_count);
        break;
    case 2:
        request->event = 255;
        break;
    case 3:
        request->priority = 15;
        break;
    case 4:
        request->priority = 16;
        break;
    case 5:
        request->priority = 255;
        break;
    case 6:
        request->delay = 60;
        break;
    case 7:
        request->delay = 61;
        break;
    default:
        request->delay = 255;
        break;
    }
}

/* Puts a line of given digits, with 0A, before a line of the text counted from 0. */
static void put_line(struct text *text, uint32_t at, const char *digits)
{
    uint8_t bytes[200];
    size_t length = strlen(digits);

    memcpy(bytes, digits, length);
    bytes[length] = 0x0A;
    replace(text, line_start(text, at), 0, bytes, length + 1);
}

/* Brings the lines of a good tape to an edge; "first" is its first line from 0. */
static void tape_line_edge(struct dice *dice, struct text *text, uint32_t first, uint32_t which)
{
    static const char *const lines[] = {
        "400000000001000", "40000000000101BD", "4000000000010100BE", "400000000001010000BE",
        "F10F", "F1000F", "F10000000F", "F100000000000F", "00", "", "0", "f1000000000f",
        "100103EC", "2000000000FFFFFFFF0018000100010104C5", "30010001040600C4", "F00000000010",
        "F000000010", "F1000000000E"
    };
    uint32_t last = line_count(text), at = between(dice, first, last);

    if (which == 0) {
        text->length = line_start(text, last - 1);
    } else if (which == 1) {
        text->length--;
    } else if (which == 2) {
        text->length = line_start(text, first);
    } else if (which == 3) {
        put_line(text, last, "F1000000000F");
    } else if (which == 4) {
        put_line(text, last, "400000000001000BF");
    } else if (which == 5) {
        put_line(text, last, "400000000001000000");
    } else if (which == 6) {
        put_line(text, last, "4000000000010000BF");
    } else {
        put_line(text, which % 2 == 0 ? at : last - 1, lines[below(dice, 18)]);
    }
}

/* A good sheet with a tape at an edge. */
void tape_edge(struct dice *dice, struct text *text, const struct book *book, uint32_t which)
{
    static struct book changed;
    uint32_t first;

    changed = *book;
    which %= TAPE_EDGES;
    if (which < 9) {
        instant_edge(dice, &changed, which);
    } else if (which < 20) {
        last_edge(dice, &changed, which - 9);
    } else if (which < 29) {
        request_edge(dice, &changed, which - 20);
    }
    text_clear(text);
    put_sheet(text, &changed);
    first = line_count(text);
    put_tape(text, &changed);
    if (which >= 29) {
        tape_line_edge(dice, text, first, which - 29);
    }
}
