/* The command write: many cases of lent tables and a buffer, one result a case. */
#include "form.h"

#include <string.h>

/* Puts a whole write case: the tables, then the line of the buffer. */
void put_write_case(struct text *out, const struct write_case *from)
{
    put_tables(out, &from->tables);
    text_hex(out, from->buffer_length, 4);
    put_next(out, from->fill, 2);
    text_byte(out, 0x0A);
}

/* Takes a write case from standard input; rows that are not given are zero. */
static void take_write_case(struct write_case *to)
{
    memset(to, 0, sizeof *to);
    take_tables(&to->tables);
    to->buffer_length = (uint32_t)take_next(4, FORM_BUFFER_MOST, ' ', "length of the buffer");
    to->fill = (uint8_t)take_next(2, UINT8_MAX, 0x0A, "fill");
}

/* Puts the result of a write case as one line; the mark is of what lies past the written bytes. */
static void put_write_result(struct text *out, struct answer found, const uint8_t *buffer,
                             size_t written, int mark)
{
    struct cursor cursor = cursor_at(buffer, written, 0);
    struct line line;

    put_answer(out, found);
    put_next(out, written, 4);
    put_next(out, count_lines(buffer, written), 4);
    while (next_line(&cursor, &line)) {
        text_byte(out, ' ');
        text_bytes(out, line.bytes, line.length);
    }
    put_next(out, (uint64_t)mark, 1);
    text_byte(out, 0x0A);
}

/* Writes one case's tables into a buffer that holds the fill, and prints the result. */
static void do_write_case(const struct write_case *given)
{
    static uint8_t buffer[FORM_BUFFER_MOST];
    static struct text out;
    struct tables tables = tables_given(&given->tables);
    struct answer found;
    size_t written;

    memset(buffer, given->fill, sizeof buffer);
    found = write_sheet(&tables, buffer, given->buffer_length, &written);
    text_clear(&out);
    put_write_result(&out, found, buffer, written,
                     all_bytes(buffer + written, given->buffer_length - written, given->fill));
    text_print(&out);
}

/* The command write. */
int command_write(void)
{
    static struct write_case given;

    while (more_cases()) {
        take_write_case(&given);
        do_write_case(&given);
    }
    return 0;
}
