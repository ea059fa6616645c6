/* The tests of lent tables, which the step and the writer have in common. */
#include "second.h"

/* The tables of a sheet that was read, as a step and the writer take them. */
struct tables tables_of(const struct sheet *sheet, const struct lent *lent)
{
    struct tables tables;

    tables.periodic = lent->periodic;
    tables.periodic_length = lent->periodic_length;
    tables.trigger = lent->trigger;
    tables.trigger_length = lent->trigger_length;
    tables.role_count = sheet->role_count;
    tables.periodic_count = sheet->periodic_count;
    tables.trigger_count = sheet->trigger_count;
    return tables;
}

/* LENGTH: each lent table has its exact length. */
int table_lengths_right(const struct tables *tables)
{
    return tables->periodic_length == PERIODIC_MOST
        && tables->trigger_length == TRIGGERS_MOST;
}

/* TOO MANY: neither count of rows is over its limit. */
int table_counts_right(const struct tables *tables)
{
    return tables->periodic_count <= PERIODIC_MOST
        && tables->trigger_count <= TRIGGERS_MOST;
}

/*
 * FIELD: the role count, then the used rows, periodic from 0 and triggers from the periodic
 * count on.
 */
static struct answer field_test(const struct tables *tables)
{
    uint32_t i;

    if (tables->role_count < 1 || tables->role_count > ROLES_MOST) {
        return answer(FIELD, 0);
    }
    for (i = 0; i < tables->periodic_count; i++) {
        if (bad_periodic(&tables->periodic[i], tables->role_count) != 0) {
            return answer(FIELD, i);
        }
    }
    for (i = 0; i < tables->trigger_count; i++) {
        if (bad_trigger(&tables->trigger[i], tables->role_count) != 0) {
            return answer(FIELD, tables->periodic_count + i);
        }
    }
    return answer(OK, 0);
}

/* FIELD and then LOOP, of tables whose lengths and counts are right. */
struct answer field_and_loop(const struct tables *tables)
{
    struct answer found = field_test(tables);

    if (found.number != OK) {
        return found;
    }
    return loop_test(tables->trigger, tables->trigger_count);
}
