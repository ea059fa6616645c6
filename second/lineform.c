/* The command line: many cases of a sheet, a tape and an answer, one part of them a case. */
#include "form.h"

/* Puts a whole line case: its head line, the sheet, the tape, a 0A. */
void put_line_case(struct text *out, const struct line_case *from, const uint8_t *sheet,
                   const uint8_t *tape)
{
    text_hex(out, from->sheet_length, 8);
    put_next(out, from->tape_length, 8);
    put_next(out, from->number, 2);
    put_next(out, from->place, 8);
    text_byte(out, 0x0A);
    text_bytes(out, sheet, from->sheet_length);
    text_bytes(out, tape, from->tape_length);
    text_byte(out, 0x0A);
}

/* Takes a line case from standard input. */
static void take_line_case(struct line_case *to, uint8_t *sheet, uint8_t *tape)
{
    to->sheet_length = (uint32_t)take_next(8, FORM_LINE_MOST, ' ', "length of the sheet");
    to->tape_length = (uint32_t)take_next(8, FORM_LINE_MOST, ' ', "length of the tape");
    to->number = (uint8_t)take_next(2, UINT8_MAX, ' ', "number of the answer");
    to->place = (uint32_t)take_next(8, UINT32_MAX, 0x0A, "place");
    form_bytes(sheet, to->sheet_length, "byte of the sheet");
    form_bytes(tape, to->tape_length, "byte of the tape");
    form_byte(0x0A, "end of the tape");
}

/* Finds the line of one case and prints the part that it is. */
static void do_line_case(const struct line_case *given, const uint8_t *sheet, const uint8_t *tape)
{
    static struct text out;
    struct shown shown = faulty_line(sheet, given->sheet_length, tape, given->tape_length,
                                     answer(given->number, given->place));

    text_clear(&out);
    text_hex(&out, (uint64_t)shown.of_tape, 1);
    put_next(&out, shown.from, 8);
    put_next(&out, shown.to, 8);
    text_byte(&out, 0x0A);
    text_print(&out);
}

/* The command line. */
int command_line(void)
{
    static uint8_t sheet[FORM_LINE_MOST], tape[FORM_LINE_MOST];
    struct line_case given;

    while (more_cases()) {
        take_line_case(&given, sheet, tape);
        do_line_case(&given, sheet, tape);
    }
    return 0;
}
