/* Lists of requests: of every length, with wrong ones in any place, all the same, in another order. */
#include "gen.h"

enum { NONE = FORM_REQUESTS_MOST };

/* How long a list is, and which of its requests are wrong, counted from 0. */
struct list {
    uint32_t length;
    uint32_t wrong;
    uint32_t later;
};

/*
 * Lengths up to 32 and over it, also such whose low eight bits look right. Over 32 the answer is
 * TOO MANY, whatever is wrong besides; of two wrong requests the first counts.
 */
static const struct list lists[] = {
    {0, NONE, NONE}, {1, NONE, NONE}, {2, NONE, NONE}, {16, NONE, NONE}, {31, NONE, NONE},
    {32, NONE, NONE}, {33, NONE, NONE}, {34, NONE, NONE}, {100, NONE, NONE}, {255, NONE, NONE},
    {256, NONE, NONE}, {257, NONE, NONE}, {288, NONE, NONE}, {1023, NONE, NONE},
    {1024, NONE, NONE},
    {1, 0, NONE}, {2, 1, NONE}, {31, 30, NONE}, {32, 0, NONE}, {32, 1, NONE}, {32, 15, NONE},
    {32, 16, NONE}, {32, 30, NONE}, {32, 31, NONE}, {32, 0, 31}, {32, 7, 20}, {32, 30, 31},
    {33, 0, NONE}, {33, 16, NONE}, {33, 31, 32}, {33, 32, NONE}, {34, 33, NONE}, {100, 32, NONE},
    {1024, 0, 1023}
};

/* How many lists there are. */
uint32_t request_lists(void)
{
    return sizeof lists / sizeof lists[0];
}

/* One request more: of a delay that those before it do not have, of this instant, the first again, or any. */
static struct request next_request(struct dice *dice, const struct step_case *to, uint32_t way)
{
    struct request request = good_request(dice, to->tables.role_count);

    if (way == 0) {
        request.delay = (uint8_t)(DELAY_MOST - to->request_count % (DELAY_MOST + 1));
    } else if (way == 1) {
        request.delay = 0;
    } else if (way == 2 && to->request_count > 0) {
        request = to->requests[0];
    }
    return request;
}

/* Gives a step one of the lists, filled in one of four ways. */
void list_requests(struct dice *dice, struct step_case *to, uint32_t which, uint32_t way)
{
    const struct list *list = &lists[which % request_lists()];

    for (to->request_count = 0; to->request_count < list->length; to->request_count++) {
        to->requests[to->request_count] = next_request(dice, to, way % 4);
    }
    if (list->wrong != NONE) {
        wrong_request(dice, &to->requests[list->wrong], to->tables.role_count, below(dice, 4));
    }
    if (list->later != NONE) {
        wrong_request(dice, &to->requests[list->later], to->tables.role_count, below(dice, 4));
    }
}

/* Puts the requests of a step into another order: the reverse one or any. */
static void reorder(struct dice *dice, struct step_case *to)
{
    uint32_t swaps = to->request_count, i, at, last;
    int reverse = chance(dice, 30);
    struct request kept;

    for (i = 0; i < (reverse ? swaps / 2 : swaps); i++) {
        last = swaps - 1 - i;
        at = reverse ? i : below(dice, last + 1);
        kept = to->requests[last];
        to->requests[last] = to->requests[at];
        to->requests[at] = kept;
    }
}

/* Gives a step 2 to 32 good requests, in one order or in another. */
void order_requests(struct dice *dice, struct step_case *to, int other)
{
    uint32_t length = between(dice, 2, REQUESTS_MOST);

    for (to->request_count = 0; to->request_count < length; to->request_count++) {
        to->requests[to->request_count] = good_request(dice, to->tables.role_count);
    }
    if (other) {
        reorder(dice, to);
    }
}
