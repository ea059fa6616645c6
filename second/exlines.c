/* The examples of document 02 [2]: the line for the screen, worked out by hand. */
#include "examples.h"

#include <string.h>

/* A sheet of 20 bytes and a tape of 17, two lines each. */
#define SHEET "100103EC\nF000000010\n"
#define TAPE "40g\nF1000000000F\n"

/* A sheet, a tape and an answer, and the part that is shown. */
static const struct {
    const char *name;
    const char *sheet;
    const char *tape;
    unsigned number;
    uint32_t place;
    struct shown wanted;
} lines[] = {
    {"the sheet's first line", SHEET, TAPE, KIND, 1, {0, 0, 8}},
    {"the sheet's last line", SHEET, TAPE, COUNT, 2, {0, 9, 19}},
    {"the tape's first line", SHEET, TAPE, FRAME, 3, {1, 0, 3}},
    {"the tape's last line", SHEET, TAPE, CHECK, 4, {1, 4, 16}},
    {"FIELD names a line", SHEET, TAPE, FIELD, 4, {1, 4, 16}},
    {"TOO MANY names a line", SHEET, TAPE, TOO_MANY, 2, {0, 9, 19}},
    {"REQUEST names a line", SHEET, TAPE, REQUEST, 3, {1, 0, 3}},
    {"a line past the last", SHEET, TAPE, KIND, 5, {1, 17, 17}},
    {"line 0", SHEET, TAPE, FIELD, 0, {1, 17, 17}},
    {"line FFFFFFFF", SHEET, TAPE, FIELD, UINT32_MAX, {1, 17, 17}},
    {"OK names no line", SHEET, TAPE, OK, 1, {1, 17, 17}},
    {"LENGTH names no line", SHEET, TAPE, LENGTH, 1, {1, 17, 17}},
    {"LOOP names no line", SHEET, TAPE, LOOP, 1, {1, 17, 17}},
    {"LAST names no line", SHEET, TAPE, LAST, 1, {1, 17, 17}},
    {"number 11 names no line", SHEET, TAPE, 11, 1, {1, 17, 17}},
    {"number 255 names no line", SHEET, TAPE, 255, 1, {1, 17, 17}},
    {"an empty line is empty at its own place", "A\n\nB\n", "", FRAME, 2, {0, 2, 2}},
    {"the line after it", "A\n\nB\n", "", FRAME, 3, {0, 3, 4}},
    {"an empty line at the start of the tape", "", "\nF1\n", FRAME, 1, {1, 0, 0}},
    {"an empty last line of the tape", "A\n", "B\n\n", FRAME, 3, {1, 2, 2}},
    {"a last line of the sheet without 0A", "100103EC\nF0", "F1\n", FRAME, 2, {0, 9, 11}},
    {"the tape's first line is the next one all the same", "100103EC\nF0", "F1\n", FRAME, 3, {1, 0, 2}},
    {"a last line of the tape without 0A", "AB", "CD", FRAME, 2, {1, 0, 2}},
    {"a 0D belongs to its line", "AB\r\n", "", FRAME, 1, {0, 0, 3}},
    {"nothing at all", "", "", KIND, 1, {1, 0, 0}},
    {"the line after the sheet when there is no tape", "A\n", "", KIND, 2, {1, 0, 0}},
    {"the line after the sheet when there is one", "A\n", "B\n", KIND, 2, {1, 0, 1}}
};

/* The lines of document 02 [2]. */
void line_examples(void)
{
    struct shown found;
    unsigned i;

    for (i = 0; i < sizeof lines / sizeof lines[0]; i++) {
        found = faulty_line((const uint8_t *)lines[i].sheet, strlen(lines[i].sheet),
                            (const uint8_t *)lines[i].tape, strlen(lines[i].tape),
                            answer(lines[i].number, lines[i].place));
        check_named("[2] line: ", lines[i].name,
                    found.of_tape == lines[i].wanted.of_tape && found.from == lines[i].wanted.from
                    && found.to == lines[i].wanted.to);
    }
}
