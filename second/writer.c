/* The writer of document 02 [1]: tables back as a sheet. */
#include "second.h"

#include <string.h>

/* Puts the sheet of tables that passed their tests, in table order. */
static void put_tables_as_sheet(struct text *out, const struct tables *tables)
{
    uint32_t i;

    put_header_of(out, SHEET_VERSION, tables->role_count);
    for (i = 0; i < tables->periodic_count; i++) {
        put_periodic(out, &tables->periodic[i]);
    }
    for (i = 0; i < tables->trigger_count; i++) {
        put_trigger(out, &tables->trigger[i]);
    }
    put_end_of(out, tables->periodic_count, tables->trigger_count);
}

/*
 * The writer tests LENGTH, TOO MANY, FIELD, LOOP. On success the sheet stands at the start of the
 * buffer and the rest of it stays; a refusal leaves all of it as given, and nothing is written.
 * The longest sheet has 12,692 bytes, so that it fits.
 */
struct answer write_sheet(const struct tables *tables, uint8_t *buffer, size_t buffer_length,
                          size_t *written)
{
    static struct text page;
    struct answer found;

    *written = 0;
    if (!table_lengths_right(tables) || buffer_length != SHEET_MOST) {
        return answer(LENGTH, 0);
    }
    if (!table_counts_right(tables)) {
        return answer(TOO_MANY, 0);
    }
    found = field_and_loop(tables);
    if (found.number != OK) {
        return found;
    }
    text_clear(&page);
    put_tables_as_sheet(&page, tables);
    memcpy(buffer, page.bytes, page.length);
    *written = page.length;
    return answer(OK, 0);
}
