/* The examples of document 02 [1]: the writer, and the program of a sheet. */
#include "examples.h"

#include <string.h>

enum { FILL = 0xA5 };

static struct bench bench;               /* the bench whose tables are written */
static uint8_t buffer[FORM_BUFFER_MOST]; /* the buffer, of which a part is lent */
static size_t written;                   /* what the writer said that it wrote */

/* Writes the bench's tables into a buffer of so many bytes that held the fill. */
static struct answer write_out(size_t length)
{
    memset(buffer, FILL, sizeof buffer);
    return write_sheet(&bench.tables, buffer, length, &written);
}

/* Whether the writer answers so, says that it wrote nothing, and leaves the buffer. */
static int refused(size_t length, unsigned number, uint32_t place)
{
    return is(write_out(length), number, place) && written == 0
        && all_bytes(buffer, sizeof buffer, FILL);
}

/* Whether the writer writes exactly these bytes and leaves what lies past them. */
static int writes(const void *bytes, size_t length)
{
    return is(write_out(SHEET_MOST), OK, 0) && written == length
        && memcmp(buffer, bytes, length) == 0
        && all_bytes(buffer + length, sizeof buffer - length, FILL);
}

/* Whether the writer writes exactly these frames. */
static int writes_frames(const char *frames)
{
    static struct text text;

    text_clear(&text);
    put_frames(&text, frames);
    return writes(text.bytes, text.length);
}

/* Puts the tables of document 01's worked sheet into a bench, row by row, without the reader. */
static void worked_tables(void)
{
    static const struct periodic row = {0, NO_END, 24, 1, 1, 1, 4};
    static const struct trigger one = {1, 0, {1, 0, 0, 0}, {0, 0, 0, 0}, 4, 6, 0};
    static const struct trigger other = {1, 1, {4, 0, 0, 0}, {2, 0, 0, 0}, 3, 5, 2};

    bench_frames(&bench, "100103 F0000000");
    bench.periodic[0] = row;
    bench.trigger[0] = one;
    bench.trigger[1] = other;
    bench.tables.periodic_count = 1;
    bench.tables.trigger_count = 2;
}

/* The worked sheet from its tables, from what was read, and with junk in what is unused. */
static void worked_sheet(void)
{
    size_t length = (size_t)(strstr(worked_input, "400") - worked_input);

    worked_tables();
    check("[1]: document 01's sheet, written from its tables, is the same bytes",
          writes(worked_input, length));
    memset(bench.periodic + 1, 0xFF, sizeof bench.periodic - sizeof bench.periodic[0]);
    memset(bench.trigger + 2, 0xFF, sizeof bench.trigger - 2 * sizeof bench.trigger[0]);
    memset(bench.trigger[0].events + 1, 0xFF, 3);
    memset(bench.trigger[1].conditions + 1, 0xFF, 3);
    check("[1]: unused rows and places are neither tested nor written",
          writes(worked_input, length));
    bench_bytes(&bench, (const uint8_t *)worked_input, length);
    check("[1]: and so is what was read of it", writes(worked_input, length));
    bench_frames(&bench, "100140 F0000000");
    check("[1]: tables without rows are a header and an end", writes_frames("100140 F0000000"));
}

/* A sheet whose triggers do not stand after all periodic frames. */
static void mixed_sheet(void)
{
    bench_frames(&bench,
                 "100103 3001010402030502 2000000000FFFFFFFF0018000100010104 30010001040600"
                 " 200000000500FFFFFF0001000000010000 F0020002");
    check("[1]: a mixed sheet is written in table order, each table's rows in sheet order",
          is(bench.read, OK, 0)
          && writes_frames("100103 2000000000FFFFFFFF0018000100010104"
                           " 200000000500FFFFFF0001000000010000 3001010402030502 30010001040600"
                           " F0020002"));
}

/* Fills the bench's tables with the longest rows. */
static void longest_tables(void)
{
    static const struct periodic row = {INSTANT_MOST, INSTANT_MOST, 10080, 10079, 10080, 127, 15};
    static const struct trigger longest = {4, 4, {1, 2, 3, 127}, {127, 126, 1, 0}, 127, 15, 60};
    unsigned i;

    bench_frames(&bench, "100140 F0000000");
    for (i = 0; i < PERIODIC_MOST; i++) {
        bench.periodic[i] = row;
    }
    for (i = 0; i < TRIGGERS_MOST; i++) {
        bench.trigger[i] = longest;
    }
    bench.tables.periodic_count = PERIODIC_MOST;
    bench.tables.trigger_count = TRIGGERS_MOST;
}

/* The longest sheet. */
static void longest_sheet(void)
{
    static struct bench again;

    longest_tables();
    check("[1]: the longest sheet has 12,692 bytes and fits",
          is(write_out(SHEET_MOST), OK, 0) && written == 12692
          && all_bytes(buffer + written, sizeof buffer - written, FILL));
    bench_bytes(&again, buffer, written);
    check("[1]: and gives the same rows when it is read",
          is(again.read, OK, 0) && again.tables.role_count == 64
          && memcmp(again.periodic, bench.periodic, sizeof bench.periodic) == 0
          && memcmp(again.trigger, bench.trigger, sizeof bench.trigger) == 0);
    bench.tables.periodic_count = 129;
    check("[1]: 129 periodic rows are TOO MANY", refused(SHEET_MOST, TOO_MANY, 0));
    bench.tables.periodic_count = 128;
    bench.tables.trigger_count = 257;
    check("[1]: 257 triggers are TOO MANY", refused(SHEET_MOST, TOO_MANY, 0));
}

/* The order of the writer's tests, each refusal added before the ones that were there. */
static void writer_order(void)
{
    worked_tables();
    bench.trigger[1].delay = 0;
    bench.trigger[1].head = 5;
    check("[1]: LOOP, its place the pair", refused(SHEET_MOST, LOOP, 128 * 5 + 5));
    bench.trigger[1].condition_count = 5;
    check("[1]: FIELD before LOOP, a trigger's place counts on from the periodic count",
          refused(SHEET_MOST, FIELD, 2));
    bench.periodic[0].run = 25;
    check("[1]: FIELD of a periodic row before that of a trigger", refused(SHEET_MOST, FIELD, 0));
    worked_tables();
    bench.trigger[1].delay = 61;
    bench.tables.role_count = 65;
    check("[1]: role count 65 is FIELD, place 0, before the rows", refused(SHEET_MOST, FIELD, 0));
    bench.tables.role_count = 0;
    check("[1]: role count 0 too", refused(SHEET_MOST, FIELD, 0));
    bench.tables.trigger_count = 257;
    check("[1]: TOO MANY before FIELD", refused(SHEET_MOST, TOO_MANY, 0));
    check("[1]: LENGTH before TOO MANY", refused(SHEET_MOST - 1, LENGTH, 0));
}

/* LENGTH of each of the three that are lent. */
static void writer_lengths(void)
{
    worked_tables();
    check("[1]: a buffer of 16,383 bytes is LENGTH, and one of 16,385",
          refused(16383, LENGTH, 0) && refused(16385, LENGTH, 0) && refused(0, LENGTH, 0));
    bench.tables.periodic_length = 127;
    check("[1]: a periodic table of 127 rows is LENGTH", refused(SHEET_MOST, LENGTH, 0));
    bench.tables.periodic_length = 128;
    bench.tables.trigger_length = 257;
    check("[1]: a trigger table of 257 rows is LENGTH", refused(SHEET_MOST, LENGTH, 0));
    bench.tables.trigger_length = 256;
    check("[1]: with the exact lengths it is written", is(write_out(SHEET_MOST), OK, 0));
}

/* A count of rows of which the last was never written. */
static void zero_row(void)
{
    worked_tables();
    bench.tables.periodic_count = 2;
    check("[1]: a counted row of zeros is FIELD at its number", refused(SHEET_MOST, FIELD, 1));
    bench.tables.periodic_count = 1;
    bench.tables.trigger_count = 3;
    check("[1]: a counted trigger of zeros too", refused(SHEET_MOST, FIELD, 3));
}

/* The program of a sheet on whole inputs. */
static void resent(void)
{
    static struct text in, out;

    check("[1] sheet: document 01's input comes back as it is", gives(resend, worked_input, worked_input));
    check("[1] sheet: a mixed sheet comes back in order, what follows as it stood",
          gives(resend,
                "100103EC\n3001010402030502BE\n2000000000FFFFFFFF0018000100010104C5\n"
                "30010001040600C4\nF00100020D\n40g\n\nF0",
                "100103EC\n2000000000FFFFFFFF0018000100010104C5\n3001010402030502BE\n"
                "30010001040600C4\nF00100020D\n40g\n\nF0"));
    check("[1] sheet: an empty input is refused, KIND at line 1", refuses(resend, "", answer(KIND, 1)));
    check("[1] sheet: a loop is refused",
          refuses(resend, "100101 30010001000000 F0000001", answer(LOOP, 0)));
    check("[1] sheet: without a line beginning F0 all is sheet",
          refuses(resend, "100101 F100000000", answer(KIND, 2)));
    text_clear(&in);
    put_frames(&in, "100101 F0000000");
    while (in.length < INPUT_MOST) {
        text_byte(&in, 'x');
    }
    resend(in.bytes, in.length, &out);
    check("[1] sheet: an input of 65,536 bytes comes back",
          out.length == in.length && memcmp(out.bytes, in.bytes, in.length) == 0);
    text_byte(&in, 'x');
    resend(in.bytes, in.length, &out);
    check("[1] sheet: one of 65,537 is LENGTH",
          out.length == 23 && memcmp(out.bytes, "E00100000000000000001F\n", 23) == 0);
}

/* The examples of document 02 [1]. */
void writer_examples(void)
{
    worked_sheet();
    mixed_sheet();
    longest_sheet();
    writer_order();
    writer_lengths();
    zero_row();
    resent();
}
