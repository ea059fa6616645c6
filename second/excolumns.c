/* The examples of document 02 [2]: the column of every refusal, worked out by hand. */
#include "examples.h"

/* A sheet, as it stands or as frames without their checks, and its whole answer. */
struct column {
    const char *name;
    const char *sheet;
    struct answer wanted;
};

/* Sheets as they stand: what is wrong is a character, a 0A or a check. */
static const struct column typed[] = {
    {"lower case: the first such digit", "100103ec\n", {FRAME, 1, 7}},
    {"a bad first character", "g00103EC\n", {FRAME, 1, 1}},
    {"a bad last character", "100103EG\n", {FRAME, 1, 8}},
    {"the first of two bad characters", "1001x3E-\n", {FRAME, 1, 5}},
    {"a blank before the line", " 100103EC\n", {FRAME, 1, 1}},
    {"a blank in the line, which is odd for it", "10 0103EC\n", {FRAME, 1, 3}},
    {"a 0D before the 0A", "100103EC\r\n", {FRAME, 1, 9}},
    {"a bad character in a line without 0A", "100g03EC", {FRAME, 1, 4}},
    {"a bad character, an odd count and no 0A", "10 ", {FRAME, 1, 3}},
    {"a bad character in the second line", "100103EC\nf000000010\n", {FRAME, 2, 1}},
    {"a bad character after a bad version", "1000031G\n", {FRAME, 1, 8}},
    {"an empty line: its 0A", "\n", {FRAME, 1, 1}},
    {"an empty second line", "100103EC\n\nF000000010\n", {FRAME, 2, 1}},
    {"one digit: its 0A", "1\n", {FRAME, 1, 2}},
    {"a digit too few: the 0A", "100103E\n", {FRAME, 1, 8}},
    {"a digit too many: the 0A", "100103EC0\n", {FRAME, 1, 10}},
    {"no 0A: one past the end", "100103EC", {FRAME, 1, 9}},
    {"no 0A at the second line", "100103EC\nF000000010", {FRAME, 2, 11}},
    {"odd and no 0A: one past the end", "100103EC\nF", {FRAME, 2, 2}},
    {"no 0A comes before a wrong sum", "100103ED", {FRAME, 1, 9}},
    {"a wrong sum: the last digit but one", "100103ED\n", {CHECK, 1, 7}},
    {"a wrong sum of a periodic frame",
     "100103EC\n2000000000FFFFFFFF0018000100010104C4\n", {CHECK, 2, 35}},
    {"a wrong sum of a frame of one byte", "10\n", {CHECK, 1, 1}},
    {"a wrong sum of an unknown kind", "FF02\n", {CHECK, 1, 3}},
    {"a wrong sum comes before a wrong version", "100003EC\n", {CHECK, 1, 7}},
    {"KIND has none", "00\n", {KIND, 1, 0}},
    {"no end frame has none", "100103EC\n", {KIND, 2, 0}},
    {"first not below the period, though the event is wrong too",
     "100103EC\n2000000000FFFFFFFF05A005A000010F0486\n", {FIELD, 2, 23}}
};

/* Sheets as frames: what is wrong is a field, or the whole frame. */
static const struct column framed[] = {
    {"version", "100201 F0000000", {FIELD, 1, 3}},
    {"role count 0", "100100 F0000000", {FIELD, 1, 5}},
    {"role count 65", "100141 F0000000", {FIELD, 1, 5}},
    {"version and role count", "100041 F0000000", {FIELD, 1, 3}},
    {"begin", "100101 2001000000FFFFFFFF0001000000010000", {FIELD, 2, 3}},
    {"begin outside, and end below it", "100101 2001000000000000050001000000010000", {FIELD, 2, 3}},
    {"every field of a periodic row", "100101 20FFFFFFFF00000000000000000000FFFF", {FIELD, 2, 3}},
    {"end below begin", "100101 2000000005000000040001000000010000", {FIELD, 2, 11}},
    {"end 16,777,216", "100101 2000000005010000000001000000010000", {FIELD, 2, 11}},
    {"end FFFFFFFE and period 0", "100101 2000000005FFFFFFFE0000000000010000", {FIELD, 2, 11}},
    {"period 0, which leaves first and run no right value",
     "100101 2000000000FFFFFFFF0000000000000000", {FIELD, 2, 19}},
    {"period 10,081, first and run outside too", "100101 2000000000FFFFFFFF2761276100000000", {FIELD, 2, 19}},
    {"first equal to the period", "100101 2000000000FFFFFFFF0002000200010000", {FIELD, 2, 23}},
    {"first and run over the period", "100101 2000000000FFFFFFFF0002000200030000", {FIELD, 2, 23}},
    {"run 0", "100101 2000000000FFFFFFFF0002000000000000", {FIELD, 2, 27}},
    {"run over the period", "100101 2000000000FFFFFFFF0002000100030000", {FIELD, 2, 27}},
    {"run and event", "100101 2000000000FFFFFFFF0002000000000200", {FIELD, 2, 27}},
    {"event", "100101 2000000000FFFFFFFF0001000000010200", {FIELD, 2, 31}},
    {"event and priority", "100101 2000000000FFFFFFFF0001000000010210", {FIELD, 2, 31}},
    {"priority", "100101 2000000000FFFFFFFF0001000000010010", {FIELD, 2, 33}},
    {"event count 0", "100101 300000010000", {FIELD, 2, 3}},
    {"event count 5", "100101 3005000000000000010000", {FIELD, 2, 3}},
    {"both counts, of a wrong byte count", "100101 300005000000000000010000", {KIND, 2, 0}},
    {"both counts, of the right byte count", "100101 3000050000000000010000", {FIELD, 2, 3}},
    {"condition count 5", "100101 300105010000000000010000", {FIELD, 2, 5}},
    {"condition count and an event", "100101 300105020000000000010000", {FIELD, 2, 5}},
    {"first event", "100101 30010002010000", {FIELD, 2, 7}},
    {"second event", "100101 3002000102010000", {FIELD, 2, 9}},
    {"fourth event", "100101 30040000000002010000", {FIELD, 2, 13}},
    {"first condition, after one event", "100101 3001010102010000", {FIELD, 2, 9}},
    {"second condition, after two events", "100101 30020201010002010000", {FIELD, 2, 13}},
    {"an event and a condition", "100101 30020201020202010000", {FIELD, 2, 9}},
    {"head", "100101 30010001020000", {FIELD, 2, 9}},
    {"priority of a trigger", "100101 30010001011000", {FIELD, 2, 11}},
    {"delay", "100101 3001000101003D", {FIELD, 2, 13}},
    {"head, priority and delay", "100101 3001000102103D", {FIELD, 2, 9}},
    {"head after four events and four conditions", "100101 3004040001000101000100020000", {FIELD, 2, 23}},
    {"priority after these", "100101 3004040001000101000100011000", {FIELD, 2, 25}},
    {"delay after these", "100101 300404000100010100010001003D", {FIELD, 2, 27}},
    {"a field of the third line", "100101 30010001010000 30010001030000", {FIELD, 3, 9}},
    {"the earlier of two lines", "100101 30010001013D00 20FFFFFFFF", {FIELD, 2, 11}},
    {"a byte too few comes before a wrong field", "100101 300100020100", {KIND, 2, 0}},
    {"COUNT has none", "100101 F0000001", {COUNT, 2, 0}},
    {"LOOP has none", "100102 30010001020000 30010003000000 F0000002", {LOOP, 2, 0}},
    {"an accepted sheet has none", "100101 F0000000", {OK, 0, 0}}
};

/* Whole inputs of a day and the line that is printed for them. */
static const struct {
    const char *name;
    const char *input;
    const char *output;
} days[] = {
    {"FIELD of the sheet", "100103EC\n2000000000FFFFFFFF05A005A000010F0486\n", "E005000000020000001702\n"},
    {"an empty input", "", "E00400000001000000001B\n"},
    {"the sheet's last 0A", "100101EE\nF000000010", "E002000000020000000B11\n"},
    {"LOOP", "100101EE\n30010001000000CE\nF00000010F\n", "E008000000000000000018\n"},
    {"one digit on the tape", "100101EE\nF000000010\n4\n", "E002000000030000000219\n"},
    {"a bad character on the tape", "100101EE\nF000000010\n40000000000100g0\n", "E002000000030000000F0C\n"},
    {"an empty line on the tape", "100101EE\nF000000010\n\n", "E00200000003000000011A\n"},
    {"the tape's last 0A", "100101EE\nF000000010\nF1000000000F", "E002000000030000000D0E\n"},
    {"CHECK on the tape", "100101EE\nF000000010\nF1000000000E\n", "E003000000030000000B0F\n"},
    {"a last instant over its limit", "100101EE\nF000000010\nF10000276187\n", "E005000000030000000315\n"},
    {"a lower instant, though the request is wrong too",
     "100101EE\nF000000010\n4000000002010000BD\n400000000102103D70\n", "E005000000040000000314\n"},
    {"REQUEST has none", "100101EE\nF000000010\n4000000000020000BE\n", "E009000000030000000014\n"}
};

/* Whether an answer is the one expected, column included. */
static int same_answer(struct answer found, struct answer wanted)
{
    return is(found, wanted.number, wanted.place) && found.column == wanted.column;
}

/* A 129th row with a wrong field, and a sheet that is too long. */
static void large_sheets(void)
{
    static struct bench bench;
    static struct text text;
    unsigned i;

    text_clear(&text);
    put_frames(&text, "100101");
    for (i = 0; i < 129; i++) {
        put_frames(&text, i < 128 ? "2000000000FFFFFFFF0001000000010000"
                                  : "2000000000FFFFFFFF0000000000010000");
    }
    bench_bytes(&bench, text.bytes, text.length);
    check("[2]: TOO MANY has no column", same_answer(bench.read, answer_at(TOO_MANY, 130, 0)));
    while (text.length < SHEET_MOST + 1) {
        text_byte(&text, 'x');
    }
    bench_bytes(&bench, text.bytes, text.length);
    check("[2]: LENGTH has no column", same_answer(bench.read, answer_at(LENGTH, 0, 0)));
    bench_bytes(&bench, text.bytes, text.length - 1);
    check("[2]: of a long sheet the 129th row still comes first",
          same_answer(bench.read, answer_at(TOO_MANY, 130, 0)));
}

/* The columns of document 02 [2]. */
void column_examples(void)
{
    unsigned i;

    for (i = 0; i < sizeof typed / sizeof typed[0]; i++) {
        check_named("[2]: ", typed[i].name, same_answer(read_of(typed[i].sheet), typed[i].wanted));
    }
    for (i = 0; i < sizeof framed / sizeof framed[0]; i++) {
        check_named("[2]: ", framed[i].name, same_answer(read_frames(framed[i].sheet), framed[i].wanted));
    }
    for (i = 0; i < sizeof days / sizeof days[0]; i++) {
        check_named("[2] day: ", days[i].name, gives(day, days[i].input, days[i].output));
    }
    large_sheets();
}
