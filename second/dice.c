/* A small generator of numbers: only unsigned arithmetic of 64 bits, so the same everywhere. */
#include "gen.h"

/* Moves the state on and stirs it. */
static uint64_t dice_next(struct dice *dice)
{
    uint64_t mixed;

    dice->state = dice->state * UINT64_C(6364136223846793005) + UINT64_C(1442695040888963407);
    mixed = dice->state ^ (dice->state >> 31);
    mixed *= UINT64_C(0x9E6C63D0876A9A47);
    return mixed ^ (mixed >> 29);
}

/* The dice for one seed and one kind. */
struct dice dice_of(uint64_t seed, const char *kind)
{
    struct dice dice;

    dice.state = seed;
    dice.state = dice_next(&dice);
    while (*kind != 0) {
        dice.state += (unsigned char)*kind;
        dice.state = dice_next(&dice);
        kind++;
    }
    return dice;
}

/* Any number of 32 bits. */
uint32_t dice_number(struct dice *dice)
{
    return (uint32_t)(dice_next(dice) >> 32);
}

/* A number from 0 to count - 1; 0 when there is none. */
uint32_t below(struct dice *dice, uint32_t count)
{
    return count == 0 ? 0 : dice_number(dice) % count;
}

/* A number from least to most. */
uint32_t between(struct dice *dice, uint32_t least, uint32_t most)
{
    return most <= least ? least : least + below(dice, most - least + 1);
}

/* Yes in so many of a hundred cases. */
int chance(struct dice *dice, uint32_t percent)
{
    return below(dice, 100) < percent;
}
