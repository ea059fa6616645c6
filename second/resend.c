/* The program of a sheet: what was read is sent back as the writer of document 02 [1] writes it. */
#include "second.h"

#include <stdio.h>
#include <stdlib.h>

/*
 * Reads the sheet of a whole input. A refusal is put as the day program puts it; otherwise the
 * sheet as the writer writes it, then what follows it as it stood, unjudged.
 */
void resend(const uint8_t *input, size_t length, struct text *out)
{
    static struct periodic periodic[PERIODIC_MOST];
    static struct trigger trigger[TRIGGERS_MOST];
    static struct sheet sheet;
    static uint8_t buffer[SHEET_MOST];
    struct lent lent = {periodic, PERIODIC_MOST, trigger, TRIGGERS_MOST};
    struct tables tables;
    struct part part;
    struct answer found = test_sheet(input, length, &lent, &sheet, &part);
    size_t written;

    text_clear(out);
    if (found.number != OK) {
        put_refusal(out, found);
        return;
    }
    tables = tables_of(&sheet, &lent);
    if (write_sheet(&tables, buffer, sizeof buffer, &written).number != OK) {
        fprintf(stderr, "second: the tables of an accepted sheet were refused\n");
        abort();
    }
    text_bytes(out, buffer, written);
    text_bytes(out, input + part.length, length - part.length);
}

/* The command sheet: standard input to standard output. */
int command_sheet(void)
{
    static uint8_t input[INPUT_MOST + 1];
    static struct text out;

    resend(input, take_input(input), &out);
    text_print(&out);
    return 0;
}
