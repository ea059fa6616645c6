/* Trigger tables of certain shapes. */
#include "gen.h"

#include <string.h>

/* Puts the numbers 0 to count - 1 into a random order. */
static void shuffle(struct dice *dice, uint8_t *numbers, uint32_t count)
{
    uint32_t i, k;
    uint8_t kept;

    for (i = 0; i < count; i++) {
        numbers[i] = (uint8_t)i;
    }
    for (i = count; i > 1; i--) {
        k = below(dice, i);
        kept = numbers[i - 1];
        numbers[i - 1] = numbers[k];
        numbers[k] = kept;
    }
}

/* Puts the triggers into another order: reversed or random, or leaves them. */
static void reorder(struct dice *dice, struct trigger *trigger, uint32_t count)
{
    uint32_t way = below(dice, 3), i, k;
    struct trigger kept;

    for (i = count; i > 1 && way > 0; i--) {
        k = way == 1 ? below(dice, i) : count - i;
        if (way == 2 && k >= i - 1) {
            break;
        }
        kept = trigger[i - 1];
        trigger[i - 1] = trigger[k];
        trigger[k] = kept;
    }
}

/* Adds a trigger of one body event and delay 0. */
static void add_simple(struct book *book, unsigned body, unsigned head, unsigned priority)
{
    struct trigger *row = &book->trigger[book->trigger_count];

    memset(row, 0, sizeof *row);
    row->event_count = 1;
    row->events[0] = (uint8_t)body;
    row->head = (uint8_t)head;
    row->priority = (uint8_t)priority;
    book->trigger_count++;
}

/* Adds good triggers up to a count. */
static void fill_up(struct dice *dice, struct book *book, uint32_t count)
{
    while (book->trigger_count < count) {
        good_trigger(dice, &book->trigger[book->trigger_count], book->role_count);
        book->trigger_count++;
    }
}

/*
 * Triggers whose head's role comes after all body roles in a random order of the roles, so that
 * no cycle arises.
 */
static void ordered_triggers(struct dice *dice, struct book *book, uint32_t count)
{
    uint8_t order[ROLES_MOST];
    struct trigger *row;
    uint32_t top, i;

    shuffle(dice, order, book->role_count);
    while (book->trigger_count < count) {
        row = &book->trigger[book->trigger_count];
        good_trigger(dice, row, book->role_count);
        row->delay = (uint8_t)(chance(dice, 80) ? 0 : row->delay);
        top = below(dice, book->role_count);
        row->head = (uint8_t)(2 * order[top] + below(dice, 2));
        for (i = 0; i < row->event_count; i++) {
            if (top > 0) {
                row->events[i] = (uint8_t)(2 * order[below(dice, top)] + row->events[i] % 2);
            } else {
                row->delay = 1;
            }
        }
        book->trigger_count++;
    }
}

/* Gives an event through a periodic row that is often due, if there is room. */
static void give(struct dice *dice, struct book *book, unsigned event, unsigned priority)
{
    struct periodic *row = &book->periodic[book->periodic_count];

    if (book->periodic_count >= PERIODIC_MOST) {
        row = &book->periodic[below(dice, PERIODIC_MOST)];
    } else {
        book->periodic_count++;
    }
    row->begin = 0;
    row->end = NO_END;
    row->period = (uint16_t)between(dice, 1, 4);
    row->first = 0;
    row->run = 1;
    row->event = (uint8_t)event;
    row->priority = (uint8_t)priority;
}

/* A chain through up to all roles, each event giving the next; closed to a + ring when asked. */
static void chain_triggers(struct dice *dice, struct book *book, uint32_t count, int ring)
{
    uint8_t order[ROLES_MOST], side[ROLES_MOST];
    uint32_t length, i, other;

    shuffle(dice, order, book->role_count);
    length = chance(dice, 50) ? book->role_count : between(dice, 1, book->role_count);
    for (i = 0; i < length; i++) {
        side[i] = (uint8_t)(2 * order[i] + (chance(dice, 80) ? 1 : 0));
    }
    for (i = 0; i + 1 < length; i++) {
        add_simple(book, side[i], side[i + 1], below(dice, PRIORITIES));
    }
    if (ring) {
        add_simple(book, side[length - 1], side[0], below(dice, PRIORITIES));
    }
    reorder(dice, book->trigger, book->trigger_count);
    if (chance(dice, 70)) {
        give(dice, book, side[0], below(dice, PRIORITIES));
    }
    if (chance(dice, 30)) {
        other = below(dice, length);
        give(dice, book, conf(side[other]), below(dice, PRIORITIES));
    }
    fill_up(dice, book, chance(dice, 50) ? count : book->trigger_count);
}

/*
 * A ladder of - edges: each head may block the body of the next trigger, so that levels stand on
 * levels.
 */
static void ladder_triggers(struct dice *dice, struct book *book, uint32_t count)
{
    uint8_t order[ROLES_MOST];
    uint32_t length, i, even = chance(dice, 50) ? 100 : 90;
    unsigned side = below(dice, 2), high = between(dice, 3, 15);

    shuffle(dice, order, book->role_count);
    length = chance(dice, 60) ? book->role_count : between(dice, 1, book->role_count);
    for (i = 0; i + 1 < length; i++) {
        give(dice, book, 2u * order[i] + side, 2);
        add_simple(book, 2u * order[i] + side, 2u * order[i + 1] + (1 - side),
                   chance(dice, even) ? high : below(dice, 3));
    }
    if (chance(dice, 50)) {
        give(dice, book, 2u * order[0] + (1 - side), high);
    }
    reorder(dice, book->trigger, book->trigger_count);
    fill_up(dice, book, chance(dice, 30) ? count : book->trigger_count);
}

/* Fills the trigger table of a book with a shape; only a tangle may have a loop. */
void shape_triggers(struct dice *dice, struct book *book, enum shape shape, uint32_t count)
{
    if (shape == ORDERED) {
        ordered_triggers(dice, book, count);
    } else if (shape == CHAIN || shape == RING) {
        chain_triggers(dice, book, count, shape == RING);
    } else if (shape == LADDER) {
        ladder_triggers(dice, book, count);
    } else {
        fill_up(dice, book, count);
    }
    if (shape != TANGLE) {
        make_loop_free(dice, book->trigger, book->trigger_count);
    }
}

/* The events of a cycle: one of each role while they last, or any of 128. */
static void cycle_events(struct dice *dice, uint8_t *events, uint32_t length)
{
    uint8_t roles[ROLES_MOST];
    uint32_t i;

    if (length > ROLES_MOST || chance(dice, 20)) {
        shuffle(dice, events, EVENTS);
        return;
    }
    shuffle(dice, roles, ROLES_MOST);
    for (i = 0; i < length; i++) {
        events[i] = (uint8_t)(2 * roles[i] + below(dice, 2));
    }
}

/*
 * A cycle of so many events with one - edge or several; neighbour 1 has only + edges, 2 delays a
 * trigger, 3 drops one.
 */
void loop_book(struct dice *dice, struct book *book, uint32_t length, uint32_t neighbour)
{
    uint8_t events[EVENTS];
    uint32_t i, odd = below(dice, length), more = chance(dice, 50) ? below(dice, 40) : 0;
    unsigned body;

    shaped_book(dice, book, ORDERED);
    book->role_count = 64;
    book->trigger_count = chance(dice, 50) ? 0 : book->trigger_count;
    cycle_events(dice, events, length);
    for (i = 0; i < length; i++) {
        body = events[i];
        if (neighbour != 1 && (i == odd || chance(dice, more))) {
            body = conf(body);
        }
        if (neighbour == 3 && i == odd) {
            continue;
        }
        add_simple(book, body, events[(i + 1) % length], below(dice, PRIORITIES));
        if (neighbour == 2 && i == odd) {
            book->trigger[book->trigger_count - 1].delay = (uint8_t)between(dice, 1, DELAY_MOST);
        }
    }
    reorder(dice, book->trigger, book->trigger_count);
    say_counts(book);
}
