/* Single steps from arbitrary states. */
#include "gen.h"

#include <string.h>

enum { SPOILS = 40 };

/* An instant of a step that is not refused: early, anywhere, or among the last. */
static uint32_t step_instant(struct dice *dice)
{
    uint32_t way = below(dice, 8);

    if (way < 2) {
        return below(dice, 130);
    }
    if (way == 2) {
        return INSTANT_MOST;
    }
    if (way == 3) {
        return INSTANT_MOST - below(dice, 130);
    }
    if (way == 4) {
        return below(dice, 20000);
    }
    return below(dice, INSTANT_MOST + 1);
}

/* Enabled roles: none, some below the role count, or any of the 64. */
static uint64_t step_roles(struct dice *dice, uint32_t role_count)
{
    uint64_t high = dice_number(dice), low = dice_number(dice), roles = (high << 32) | low;
    uint32_t way = below(dice, 4);

    if (way == 0) {
        return 0;
    }
    if (way < 3 && role_count < 64) {
        return roles & ((UINT64_C(1) << role_count) - 1);
    }
    return roles;
}

/* A set of priorities: one, a few or any. */
static uint16_t any_mask(struct dice *dice)
{
    uint32_t way = below(dice, 4), one = below(dice, 16), other = below(dice, 16);

    if (way < 2) {
        return (uint16_t)(1u << one);
    }
    if (way == 2) {
        return (uint16_t)((1u << one) | (1u << other));
    }
    return (uint16_t)dice_number(dice);
}

/* Waiting events: none, some, a full row, or (seldom) everywhere; many of them for this instant. */
static void step_waiting(struct dice *dice, struct step_case *to)
{
    uint32_t way = below(dice, 50), count = below(dice, 24), i, row, event;
    uint32_t now = to->instant % WAITING_ROWS;

    if (way < 8) {
        return;
    }
    for (i = 0; i < count; i++) {
        row = chance(dice, 60) ? now : below(dice, WAITING_ROWS);
        event = chance(dice, 80) ? any_event(dice, to->tables.role_count) : below(dice, EVENTS);
        to->waiting[row * EVENTS + event] = any_mask(dice);
    }
    for (event = 0; event < EVENTS && way < 12; event++) {
        to->waiting[now * EVENTS + event] = any_mask(dice);
    }
    for (i = 0; i < WAITING_LENGTH && way == 49; i++) {
        to->waiting[i] = any_mask(dice);
    }
}

/* Moves the windows of some periodic rows near the instant. */
static void move_windows(struct dice *dice, struct step_case *to)
{
    struct periodic other;
    uint32_t i;

    for (i = 0; i < to->tables.periodic_count; i++) {
        good_periodic(dice, &other, to->tables.role_count, to->instant);
        if (to->tables.periodic[i].end != NO_END || chance(dice, 2)) {
            to->tables.periodic[i].begin = other.begin;
            to->tables.periodic[i].end = other.end;
        }
    }
}

/* Requests: none, some, or 32, in any order. */
static void step_requests(struct dice *dice, struct step_case *to)
{
    uint32_t way = below(dice, 10), i;

    to->request_count = way < 3 ? 0 : between(dice, 1, 6);
    if (way == 9) {
        to->request_count = between(dice, 30, 32);
    }
    for (i = 0; i < to->request_count; i++) {
        to->requests[i] = good_request(dice, to->tables.role_count);
    }
}

/* A step with the rows of a book, of at most 128 and 256 rows, from an arbitrary state. */
void step_case_of(struct dice *dice, struct step_case *to, const struct book *book)
{
    memset(to, 0, sizeof *to);
    table_case_of(&to->tables, book);
    to->waiting_length = WAITING_LENGTH;
    to->events_length = EVENTS;
    to->instant = step_instant(dice);
    to->roles = step_roles(dice, to->tables.role_count);
    to->fill = (uint16_t)(chance(dice, 30) ? 0 : dice_number(dice));
    if (to->tables.role_count >= 1 && to->tables.role_count <= ROLES_MOST) {
        step_waiting(dice, to);
        step_requests(dice, to);
    }
}

/* Adds what a good step may have besides: windows near the instant and junk in what is unused. */
static void finish_good(struct dice *dice, struct step_case *to)
{
    if (to->tables.periodic_count <= PERIODIC_MOST && to->tables.trigger_count <= TRIGGERS_MOST) {
        move_windows(dice, to);
        if (chance(dice, 50)) {
            junk_unused(dice, &to->tables);
        }
    }
}

/* Sets a length to one that is not exact. */
static uint32_t wrong_length(struct dice *dice, uint32_t exact, uint32_t most)
{
    uint32_t way = below(dice, 5);

    if (way == 0) {
        return 0;
    }
    if (way == 1) {
        return exact - 1;
    }
    if (way == 2) {
        return exact + 1;
    }
    return way == 3 ? most : below(dice, exact);
}

/* Spoils a length; rows and entries past it go. */
static void spoil_length(struct dice *dice, struct step_case *to, uint32_t which)
{
    uint32_t i;

    if (which == 0) {
        to->tables.periodic_length = wrong_length(dice, PERIODIC_MOST, FORM_PERIODIC_MOST);
    } else if (which == 1) {
        to->tables.trigger_length = wrong_length(dice, TRIGGERS_MOST, FORM_TRIGGERS_MOST);
    } else if (which == 2) {
        to->waiting_length = wrong_length(dice, WAITING_LENGTH, FORM_WAITING_MOST);
    } else {
        to->events_length = wrong_length(dice, EVENTS, FORM_EVENTS_MOST);
    }
    trim_rows(&to->tables);
    for (i = to->waiting_length; i < FORM_WAITING_MOST; i++) {
        to->waiting[i] = 0;
    }
}

/* Spoils a count: over its limit, also by numbers whose low bits look right. */
static void spoil_count(struct dice *dice, struct step_case *to, uint32_t which)
{
    static const uint32_t over[] = {1, 2, 128, 256, 65536, 65537, 16777216, 0x80000000u};
    uint32_t more = over[below(dice, 8)], i;

    if (which == 0) {
        to->tables.periodic_count = chance(dice, 20) ? UINT32_MAX : PERIODIC_MOST + more;
    } else if (which == 1) {
        to->tables.trigger_count = chance(dice, 20) ? UINT32_MAX : TRIGGERS_MOST + more;
    } else if (which == 2) {
        to->tables.role_count = chance(dice, 20) ? UINT32_MAX : ROLES_MOST + more;
    } else if (which == 3) {
        to->tables.role_count = 0;
    } else {
        more = more > 512 ? between(dice, 1, 992) : more;
        for (i = to->request_count; i < REQUESTS_MOST + more; i++) {
            to->requests[i] = good_request(dice, 1);
        }
        to->request_count = REQUESTS_MOST + more;
    }
}

/* Makes a request wrong in one of its fields, at or over a limit. */
void wrong_request(struct dice *dice, struct request *request, uint32_t role_count, uint32_t which)
{
    if (which == 0) {
        request->event = (uint8_t)(2 * role_count);
    } else if (which == 1) {
        request->event = (uint8_t)between(dice, 128, 255);
    } else if (which == 2) {
        request->priority = (uint8_t)(chance(dice, 50) ? 16 : between(dice, 16, 255));
    } else {
        request->delay = (uint8_t)(chance(dice, 50) ? 61 : between(dice, 61, 255));
    }
}

/* Spoils a request, in any place. */
static void spoil_request(struct dice *dice, struct step_case *to, uint32_t which)
{
    if (to->request_count == 0) {
        to->requests[0] = good_request(dice, 1);
        to->request_count = 1;
    }
    wrong_request(dice, &to->requests[below(dice, to->request_count)], to->tables.role_count, which);
}

/* How many ways of spoiling a step there are. */
uint32_t step_spoils(void)
{
    return SPOILS;
}

/* Spoils one thing in a good step; some ways leave it good. */
void spoil_step(struct dice *dice, struct step_case *to, uint32_t which)
{
    which %= SPOILS;
    if (which == 0) {
        finish_good(dice, to);
    } else if (which < 9) {
        spoil_length(dice, to, which % 4);
    } else if (which < 13) {
        to->instant = which == 9 ? UINT32_MAX : INSTANT_MOST + 1;
        to->instant = which == 10 ? between(dice, INSTANT_MOST + 1, UINT32_MAX) : to->instant;
    } else if (which < 23) {
        spoil_count(dice, to, which % 5);
    } else if (which < 31) {
        spoil_request(dice, to, which % 4);
    } else if (which < 34) {
        spoil_loop(dice, &to->tables);
    } else {
        spoil_row(dice, &to->tables, which % 6);
    }
}
