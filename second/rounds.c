/* The writer against the reader, both ways round, on generated tables and sheets. */
#include "gen.h"

#include <stdio.h>
#include <string.h>

/* The two tables of a sheet. */
struct pair {
    struct periodic periodic[PERIODIC_MOST];
    struct trigger trigger[TRIGGERS_MOST];
};

/* The counts that are printed. */
struct tally {
    uint64_t tables;   /* tables that came back as they were */
    uint64_t sheets;   /* sheets that came back in the order asked for */
    uint64_t in_order; /* of these: the same bytes */
    uint64_t failed;
};

static struct book book; /* the book in the making */

/* What must be read of written tables: the used rows with their used places, all else zero. */
static void used_only(struct pair *to, const struct tables *from)
{
    uint32_t i;

    memset(to, 0, sizeof *to);
    memcpy(to->periodic, from->periodic, from->periodic_count * sizeof *to->periodic);
    memcpy(to->trigger, from->trigger, from->trigger_count * sizeof *to->trigger);
    for (i = 0; i < from->trigger_count; i++) {
        set_unused_places(&to->trigger[i], 0);
    }
}

/* Reads what was written; what is wrong with it, or NULL. */
static const char *read_back(const uint8_t *bytes, size_t length, const struct tables *given)
{
    static struct pair wanted, found;
    static struct sheet sheet;
    struct lent lent = {found.periodic, PERIODIC_MOST, found.trigger, TRIGGERS_MOST};

    used_only(&wanted, given);
    memset(&found, 0xA5, sizeof found);
    if (read_sheet(bytes, length, &lent, &sheet).number != OK) {
        return "what was written is refused by the reader";
    }
    if (sheet.role_count != given->role_count || sheet.periodic_count != given->periodic_count
        || sheet.trigger_count != given->trigger_count) {
        return "what was written has other counts";
    }
    if (memcmp(wanted.periodic, found.periodic, sizeof wanted.periodic) != 0
        || memcmp(wanted.trigger, found.trigger, sizeof wanted.trigger) != 0) {
        return "what was written has other rows";
    }
    return NULL;
}

/* Good tables with junk in what is unused, written and read again; what is wrong, or NULL. */
static const char *tables_round(struct dice *dice)
{
    static struct write_case given;
    static uint8_t buffer[SHEET_MOST];
    struct tables tables;
    size_t written;

    accepted_book(dice, &book);
    write_case_of(dice, &given, &book);
    junk_unused(dice, &given.tables);
    tables = tables_given(&given.tables);
    memset(buffer, given.fill, sizeof buffer);
    if (write_sheet(&tables, buffer, sizeof buffer, &written).number != OK) {
        return "good tables are refused by the writer";
    }
    if (!all_bytes(buffer + written, sizeof buffer - written, given.fill)) {
        return "what lies past the written length did not stay";
    }
    return read_back(buffer, written, &tables);
}

/* Puts those lines of a text whose frames are of one kind, as they stand and in their order. */
static void put_kind(struct text *out, const struct text *from, const char *kind)
{
    struct cursor cursor = cursor_at(from->bytes, from->length, 1);
    struct line line;

    while (next_line(&cursor, &line)) {
        if (memcmp(line.bytes, kind, 2) == 0) {
            text_bytes(out, line.bytes, line.length);
            text_byte(out, 0x0A);
        }
    }
}

/* The lines of an accepted sheet: the header, the periodic ones, the triggers, the end. */
static void in_table_order(struct text *out, const struct text *sheet)
{
    text_clear(out);
    put_kind(out, sheet, "10");
    put_kind(out, sheet, "20");
    put_kind(out, sheet, "30");
    put_kind(out, sheet, "F0");
}

/* Whether no periodic frame of a sheet comes after a trigger. */
static int periodic_first(const struct text *sheet)
{
    struct cursor cursor = cursor_at(sheet->bytes, sheet->length, 1);
    struct line line;
    int triggers = 0;

    while (next_line(&cursor, &line)) {
        if (triggers && line.bytes[0] == '2') {
            return 0;
        }
        triggers = triggers || line.bytes[0] == '3';
    }
    return 1;
}

/* Whether two texts have the same bytes. */
static int same_text(const struct text *one, const struct text *other)
{
    return one->length == other->length && memcmp(one->bytes, other->bytes, one->length) == 0;
}

/* An accepted sheet in any order, read and written; what is wrong, or NULL. */
static const char *sheet_round(struct dice *dice, int *ordered)
{
    static struct text sheet, wanted, sent, again;

    accepted_book(dice, &book);
    text_clear(&sheet);
    put_mixed(dice, &sheet, &book, chance(dice, 25) ? 100 : below(dice, 101));
    *ordered = periodic_first(&sheet);
    in_table_order(&wanted, &sheet);
    resend(sheet.bytes, sheet.length, &sent);
    resend(sent.bytes, sent.length, &again);
    if (!same_text(&sent, &wanted)) {
        return "its lines do not come back in table order";
    }
    if (*ordered != same_text(&sent, &sheet)) {
        return "it comes back the same although mixed, or another although not";
    }
    return same_text(&again, &sent) ? NULL : "what came back does not come back the same";
}

/* Counts a round and says which one failed, so that its seed alone shows it again. */
static int passed(struct tally *tally, const char *what, uint64_t seed, const char *wrong)
{
    if (wrong == NULL) {
        return 1;
    }
    printf("FAIL %s of seed %llu: %s\n", what, (unsigned long long)seed, wrong);
    tally->failed++;
    return 0;
}

/* The command rounds: so many tables and so many sheets, the first pair with the seed given. */
int command_rounds(uint64_t rounds, uint64_t seed)
{
    struct tally tally = {0, 0, 0, 0};
    struct dice dice;
    uint64_t i;
    int ordered;

    for (i = seed; i < seed + rounds; i++) {
        dice = dice_of(i, "rounds-tables");
        tally.tables += passed(&tally, "tables", i, tables_round(&dice)) ? 1 : 0;
        dice = dice_of(i, "rounds-sheet");
        if (passed(&tally, "sheet", i, sheet_round(&dice, &ordered))) {
            tally.sheets++;
            tally.in_order += ordered ? 1 : 0;
        }
    }
    printf("%llu tables written and read again: the same counts and rows, all else zero\n",
           (unsigned long long)tally.tables);
    printf("%llu sheets read and written again: %llu the same bytes, %llu put in order\n",
           (unsigned long long)tally.sheets, (unsigned long long)tally.in_order,
           (unsigned long long)(tally.sheets - tally.in_order));
    printf("%llu passed, %llu failed\n", (unsigned long long)(tally.tables + tally.sheets),
           (unsigned long long)tally.failed);
    return tally.failed == 0 ? 0 : 1;
}
