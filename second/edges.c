/* The edges of each limit of rows and of the lines of a sheet. */
#include "gen.h"

#include <string.h>

static const struct edge edges[] = {
    {VERSION, 0, 1}, {VERSION, 0, 0}, {VERSION, 0, 2}, {VERSION, 0, 255},
    {ROLES, 0, 0}, {ROLES, 0, 1}, {ROLES, 0, 63}, {ROLES, 0, 64}, {ROLES, 0, 65}, {ROLES, 0, 255},
    {BEGIN, 0, 0}, {BEGIN, 0, 16777215}, {BEGIN, 0, 16777216}, {BEGIN, 0, NO_END},
    {END, 1, 0}, {END, 1, UINT32_MAX}, {END, 1, 1}, {END, 0, 16777215}, {END, 0, 16777216},
    {END, 0, UINT32_MAX - 1}, {END, 0, NO_END}, {END, 0, 0},
    {PERIOD, 0, 0}, {PERIOD, 0, 1}, {PERIOD, 0, 10080}, {PERIOD, 0, 10081}, {PERIOD, 0, 65535},
    {FIRST, 0, 0}, {FIRST, 1, UINT32_MAX}, {FIRST, 1, 0}, {FIRST, 1, 1}, {FIRST, 0, 65535},
    {RUN, 0, 0}, {RUN, 0, 1}, {RUN, 1, UINT32_MAX}, {RUN, 1, 0}, {RUN, 1, 1}, {RUN, 0, 65535},
    {ROW_EVENT, 1, UINT32_MAX}, {ROW_EVENT, 1, 0}, {ROW_EVENT, 0, 128}, {ROW_EVENT, 0, 255},
    {ROW_PRIORITY, 0, 0}, {ROW_PRIORITY, 0, 15}, {ROW_PRIORITY, 0, 16}, {ROW_PRIORITY, 0, 255},
    {BODY_COUNT, 0, 0}, {BODY_COUNT, 0, 1}, {BODY_COUNT, 0, 4}, {BODY_COUNT, 0, 5},
    {BODY_COUNT, 0, 255},
    {CONDITION_COUNT, 0, 0}, {CONDITION_COUNT, 0, 1}, {CONDITION_COUNT, 0, 4},
    {CONDITION_COUNT, 0, 5}, {CONDITION_COUNT, 0, 255},
    {BODY, 1, UINT32_MAX}, {BODY, 1, 0}, {BODY, 0, 128}, {BODY, 0, 255},
    {CONDITION, 1, UINT32_MAX}, {CONDITION, 1, 0}, {CONDITION, 0, 128}, {CONDITION, 0, 255},
    {HEAD, 1, UINT32_MAX}, {HEAD, 1, 0}, {HEAD, 0, 128}, {HEAD, 0, 255},
    {HEAD_PRIORITY, 0, 0}, {HEAD_PRIORITY, 0, 15}, {HEAD_PRIORITY, 0, 16}, {HEAD_PRIORITY, 0, 255},
    {DELAY, 0, 0}, {DELAY, 0, 60}, {DELAY, 0, 61}, {DELAY, 0, 255},
    {PERIODIC_ROWS, 0, 0}, {PERIODIC_ROWS, 0, 127}, {PERIODIC_ROWS, 0, 128},
    {PERIODIC_ROWS, 0, 129}, {PERIODIC_ROWS, 0, 140},
    {TRIGGER_ROWS, 0, 0}, {TRIGGER_ROWS, 0, 255}, {TRIGGER_ROWS, 0, 256},
    {TRIGGER_ROWS, 0, 257}, {TRIGGER_ROWS, 0, 270},
    {END_PERIODIC, 1, 1}, {END_PERIODIC, 1, UINT32_MAX}, {END_PERIODIC, 0, 255}, {END_PERIODIC, 0, 0},
    {END_TRIGGER, 1, 1}, {END_TRIGGER, 1, UINT32_MAX}, {END_TRIGGER, 1, 256}, {END_TRIGGER, 0, 65535},
    {END_TRIGGER, 0, 0}
};

/* How many edges of rows there are. */
uint32_t row_edges(void)
{
    return sizeof edges / sizeof edges[0];
}

/* Gives the book another role count and brings its events below it. */
static void set_roles(struct dice *dice, struct book *book, uint32_t roles)
{
    uint32_t limit = roles == 0 ? 2 : 2 * roles, i;
    unsigned k;
    struct trigger *row;

    book->role_count = roles;
    for (i = 0; i < book->periodic_count; i++) {
        book->periodic[i].event = (uint8_t)(book->periodic[i].event % limit);
    }
    for (i = 0; i < book->trigger_count; i++) {
        row = &book->trigger[i];
        row->head = (uint8_t)(row->head % limit);
        for (k = 0; k < BODY_MOST; k++) {
            row->events[k] = (uint8_t)(row->events[k] % limit);
            row->conditions[k] = (uint8_t)(row->conditions[k] % limit);
        }
    }
    for (i = 0; i < book->tape.count; i++) {
        book->tape.requests[i].event = (uint8_t)(book->tape.requests[i].event % limit);
    }
    make_loop_free(dice, book->trigger, book->trigger_count);
}

/* Gives the book another number of periodic rows, the last of them at times with a wrong field. */
static void set_periodic_rows(struct dice *dice, struct book *book, uint32_t count)
{
    while (book->periodic_count < count) {
        good_periodic(dice, &book->periodic[book->periodic_count], book->role_count, 10);
        book->periodic_count++;
    }
    book->periodic_count = count;
    if (count > 0 && chance(dice, 20)) {
        book->periodic[count - 1].period = 0;
    }
    say_counts(book);
}

/* Gives the book another number of triggers, the last of them at times with a wrong field. */
static void set_trigger_rows(struct dice *dice, struct book *book, uint32_t count)
{
    while (book->trigger_count < count) {
        good_trigger(dice, &book->trigger[book->trigger_count], book->role_count);
        book->trigger_count++;
    }
    book->trigger_count = count;
    make_loop_free(dice, book->trigger, book->trigger_count);
    if (count > 0 && chance(dice, 20)) {
        book->trigger[count - 1].delay = 61;
    }
    say_counts(book);
}

/* Sets a field of the whole book. */
static void set_book(struct dice *dice, struct book *book, const struct edge *edge)
{
    uint32_t value = edge->value;

    switch (edge->spot) {
    case VERSION:
        book->version = (uint8_t)value;
        break;
    case ROLES:
        set_roles(dice, book, value);
        break;
    case PERIODIC_ROWS:
        set_periodic_rows(dice, book, value);
        break;
    case TRIGGER_ROWS:
        set_trigger_rows(dice, book, value);
        break;
    case END_PERIODIC:
        book->end_periodic = value + (edge->from ? book->periodic_count : 0);
        break;
    case END_TRIGGER:
        book->end_trigger = value + (edge->from ? book->trigger_count : 0);
        break;
    default:
        break;
    }
}

/* Sets a field of a periodic row; begin is at least 1 before an end is counted from it. */
static void set_periodic(struct periodic *row, const struct edge *edge, uint32_t role_count)
{
    uint32_t value = edge->value;

    row->begin = edge->spot == END && row->begin == 0 ? 7 : row->begin;
    row->first = edge->spot == PERIOD ? 0 : row->first;
    row->run = edge->spot == PERIOD ? 1 : row->run;
    switch (edge->spot) {
    case BEGIN:
        row->begin = value;
        break;
    case END:
        row->end = value + (edge->from ? row->begin : 0);
        break;
    case PERIOD:
        row->period = (uint16_t)value;
        break;
    case FIRST:
        row->first = (uint16_t)(value + (edge->from ? row->period : 0u));
        break;
    case RUN:
        row->run = (uint16_t)(value + (edge->from ? row->period : 0u));
        break;
    case ROW_EVENT:
        row->event = (uint8_t)(value + (edge->from ? 2 * role_count : 0));
        break;
    default:
        row->priority = (uint8_t)value;
        break;
    }
}

/* How many places a count takes; one over the limit takes all. */
static uint32_t places(uint8_t count)
{
    return count > BODY_MOST ? BODY_MOST : count;
}

/* Sets a field of a trigger; a place that is set is a used one. */
static void set_trigger(struct dice *dice, struct trigger *row, const struct edge *edge,
                        uint32_t role_count)
{
    uint8_t value = (uint8_t)(edge->value + (edge->from ? 2 * role_count : 0));

    switch (edge->spot) {
    case BODY_COUNT:
        row->event_count = value;
        break;
    case CONDITION_COUNT:
        row->condition_count = value;
        break;
    case BODY:
        row->events[below(dice, places(row->event_count))] = value;
        break;
    case CONDITION:
        row->condition_count = row->condition_count == 0 ? 1 : row->condition_count;
        row->conditions[below(dice, places(row->condition_count))] = value;
        break;
    case HEAD:
        row->head = value;
        break;
    case HEAD_PRIORITY:
        row->priority = value;
        break;
    default:
        row->delay = value;
        break;
    }
}

/* The number of a row among so many. */
uint32_t row_at(struct dice *dice, enum where where, uint32_t count)
{
    if (where == FIRST_ROW) {
        return 0;
    }
    if (where == MIDDLE_ROW) {
        return count / 2;
    }
    return where == LAST_ROW ? count - 1 : below(dice, count);
}

/* Whether an edge is one of a periodic row. */
int of_periodic(const struct edge *edge)
{
    return edge->spot >= BEGIN && edge->spot < BODY_COUNT;
}

/* Whether an edge is one of a trigger. */
static int of_trigger(const struct edge *edge)
{
    return edge->spot >= BODY_COUNT && edge->spot < PERIODIC_ROWS;
}

/* Brings one field of a good book to an edge, in the row that is asked for. */
void set_edge(struct dice *dice, struct book *book, const struct edge *edge, enum where where)
{
    uint32_t row;

    if (of_periodic(edge)) {
        if (book->periodic_count == 0) {
            good_periodic(dice, &book->periodic[0], book->role_count, 10);
            book->periodic_count = 1;
        }
        row = row_at(dice, where, book->periodic_count);
        set_periodic(&book->periodic[row], edge, book->role_count);
        say_counts(book);
    } else if (of_trigger(edge)) {
        if (book->trigger_count == 0) {
            good_trigger(dice, &book->trigger[0], book->role_count);
            book->trigger_count = 1;
            make_loop_free(dice, book->trigger, 1);
        }
        row = row_at(dice, where, book->trigger_count);
        set_trigger(dice, &book->trigger[row], edge, book->role_count);
        say_counts(book);
    } else {
        set_book(dice, book, edge);
    }
}

/* Brings one field of a good book to an edge, in any row. */
void row_edge(struct dice *dice, struct book *book, uint32_t which)
{
    set_edge(dice, book, &edges[which % row_edges()], ANY_ROW);
}

/* Lines to be put into a sheet; those with a dot at the end get their check put on. */
static const char *const odd_lines[] = {
    "00", "10", "1", "F0", "F1", "0", "", "100103ec", "100103EC", "GG", "FF01", "0000", "01FF",
    "30D0", "20E0", "F010", "3000D0", "300000D0", "30000000000000D0", "3000000000D0",
    "100103EC\r", " 100103EC", "100103EC ", "\t", "10 0103EC", "1001 03EC", "0100103EC",
    "10.", "1001.", "10010400.", "100104.", "20.", "2000000000FFFFFFFF0018000100010104.",
    "2000000000FFFFFFFF00180001000101.", "2000000000FFFFFFFF001800010001010400.",
    "30.", "3001.", "300100.", "30010000000000.", "3001000000000000.", "300100000000.",
    "3000000000000000.", "30000000000000.", "30050001000100010000.", "3005000000000000000000.",
    "300105000000000000000000.", "30010500000000000000000000.", "30FF0001000000.", "3002000100000000.",
    "F0.", "F000.", "F00000.", "F0000000.", "F000000000.", "F1.", "F100000000.", "F10000000A.",
    "4000000000010000.", "40000000000100.", "400000000001000000.", "E00400000001.",
    "5000000000000000000000000000.", "FF.", "11.", "21.", "2F.", "31.", "EF.", "F2.", "FF000000."
};

enum { ODD_LINES = sizeof odd_lines / sizeof odd_lines[0], LINE_PLACES = 5, TEXT_WAYS = 12 };

/* Writes one of the odd lines, its check put on when it asks for that, with 0A. */
static size_t odd_line(uint8_t *to, const char *from)
{
    size_t length = strlen(from), i;
    unsigned sum = 0, value;

    memcpy(to, from, length);
    if (length > 0 && from[length - 1] == '.') {
        length--;
        for (i = 0; i < length; i++) {
            value = (unsigned)(from[i] >= 'A' ? from[i] - 'A' + 10 : from[i] - '0');
            sum += i % 2 == 0 ? 16 * value : value;
        }
        sum = (256 - sum % 256) % 256;
        to[length++] = (uint8_t)"0123456789ABCDEF"[sum / 16];
        to[length++] = (uint8_t)"0123456789ABCDEF"[sum % 16];
    }
    to[length] = 0x0A;
    return length + 1;
}

/* How many edges of the lines of a text there are. */
uint32_t text_edges(void)
{
    return TEXT_WAYS + ODD_LINES * LINE_PLACES;
}

/* Puts an odd line first, second, anywhere, before the last line or after it. */
static void put_odd_line(struct dice *dice, struct text *text, uint32_t which)
{
    uint8_t bytes[100];
    uint32_t lines = line_count(text), place = which % LINE_PLACES, at = below(dice, lines + 1);
    size_t length = odd_line(bytes, odd_lines[which / LINE_PLACES % ODD_LINES]);

    if (place == 0) {
        at = 0;
    } else if (place == 1) {
        at = 1;
    } else if (place == 2) {
        at = lines - 1;
    } else if (place == 3) {
        at = lines;
    }
    replace(text, line_start(text, at), 0, bytes, length);
}

/* Doubles a line, from 0, at another place. */
static void double_line(struct text *text, uint32_t line, uint32_t at)
{
    uint8_t bytes[2000];
    size_t start = line_start(text, line), length = line_start(text, line + 1) - start;

    length = length > sizeof bytes ? sizeof bytes : length;
    memcpy(bytes, text->bytes + start, length);
    replace(text, line_start(text, at), 0, bytes, length);
}

/* Brings the lines of a good sheet to an edge. */
void text_edge(struct dice *dice, struct text *text, const struct book *book, uint32_t which)
{
    uint32_t lines = line_count(text), at = below(dice, lines);
    size_t end = line_start(text, lines - 1);

    which %= text_edges();
    if (which >= TEXT_WAYS) {
        put_odd_line(dice, text, which - TEXT_WAYS);
    } else if (which == 0) {
        text->length = 0;
    } else if (which == 1) {
        text->length = line_start(text, 1);
    } else if (which == 2) {
        text->length = end;
    } else if (which == 3) {
        text->length--;
    } else if (which == 4) {
        double_line(text, at, lines);
    } else if (which == 5) {
        double_line(text, lines - 1, lines);
    } else if (which == 6) {
        double_line(text, 0, 1);
    } else if (which == 7) {
        double_line(text, 0, at);
    } else if (which == 8) {
        replace(text, 0, line_start(text, 1), NULL, 0);
    } else if (which == 9) {
        double_line(text, lines - 1, at);
    } else if (which == 10) {
        text->length = below(dice, (uint32_t)text->length);
    } else {
        put_header(text, book);
    }
}
