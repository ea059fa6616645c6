/* Lines and frames, which the sheet and the tape have in common. */
#include "second.h"

/* A walk over bytes whose first line has the given number. */
struct cursor cursor_at(const uint8_t *bytes, size_t length, uint32_t line)
{
    struct cursor cursor;

    cursor.bytes = bytes;
    cursor.length = length;
    cursor.at = 0;
    cursor.line = line;
    return cursor;
}

/*
 * Takes the next line, up to byte 0A or, with no final 0A, up to the end; 0 when no byte is
 * left.
 */
int next_line(struct cursor *cursor, struct line *line)
{
    size_t start = cursor->at, end = start;

    if (start >= cursor->length) {
        return 0;
    }
    while (end < cursor->length && cursor->bytes[end] != 0x0A) {
        end++;
    }
    line->bytes = cursor->bytes + start;
    line->length = end - start;
    line->ended = end < cursor->length;
    cursor->at = line->ended ? end + 1 : end;
    cursor->line++;
    return 1;
}

/* How many lines some bytes have, one without 0A at the end counted too. */
uint32_t count_lines(const uint8_t *bytes, size_t length)
{
    struct cursor cursor = cursor_at(bytes, length, 0);
    struct line line;

    while (next_line(&cursor, &line)) {
    }
    return cursor.line;
}

/* The value of an upper-case hexadecimal digit, or -1 for any other character. */
static int digit_value(uint8_t character)
{
    if (character >= '0' && character <= '9') {
        return character - '0';
    }
    if (character >= 'A' && character <= 'F') {
        return character - 'A' + 10;
    }
    return -1;
}

/*
 * FRAME: the column of the first character that is no upper-case hex digit; else, of an empty
 * line, an odd count or no final 0A, the one past all characters, where a 0A stands if there is
 * one; 0 when the line is right.
 */
static uint32_t frame_fault(const struct line *line)
{
    size_t i;

    for (i = 0; i < line->length; i++) {
        if (digit_value(line->bytes[i]) < 0) {
            return (uint32_t)i + 1;
        }
    }
    if (line->length == 0 || line->length % 2 == 1 || !line->ended
        || line->length / 2 > FRAME_MOST) {
        return (uint32_t)line->length + 1;
    }
    return 0;
}

/* Takes the bytes that the digits of a line stand for. */
static void take_bytes(const struct line *line, struct frame *frame)
{
    size_t i;

    frame->length = line->length / 2;
    for (i = 0; i < frame->length; i++) {
        frame->bytes[i] = (uint8_t)(16 * digit_value(line->bytes[2 * i])
                                    + digit_value(line->bytes[2 * i + 1]));
    }
}

/* CHECK is not given: the sum of all bytes of the frame is a multiple of 256. */
static int check_right(const struct frame *frame)
{
    unsigned long sum = 0;
    size_t i;

    for (i = 0; i < frame->length; i++) {
        sum += frame->bytes[i];
    }
    return sum % 256 == 0;
}

/* Tests a line FRAME and then CHECK, whose column is the last digit but one. */
struct answer frame_and_check(const struct line *line, uint32_t number, struct frame *frame)
{
    uint32_t fault = frame_fault(line);

    if (fault != 0) {
        return answer_at(FRAME, number, fault);
    }
    take_bytes(line, frame);
    if (!check_right(frame)) {
        return answer_at(CHECK, number, (uint32_t)line->length - 1);
    }
    return answer(OK, 0);
}

/* FIELD at the first digit of the field that starts at a byte of the frame; OK for byte 0. */
struct answer field_answer(uint32_t number, unsigned at)
{
    return at == 0 ? answer(OK, 0) : answer_at(FIELD, number, 2 * at + 1);
}

/* A number in a frame, high byte first. */
uint32_t number_at(const struct frame *frame, size_t at, size_t bytes)
{
    uint32_t value = 0;
    size_t i;

    for (i = 0; i < bytes; i++) {
        value = 256 * value + frame->bytes[at + i];
    }
    return value;
}
