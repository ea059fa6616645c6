/* A line of upper-case hexadecimal as a frame: FRAME and CHECK. */
#include "peer.h"

enum { BAD = 256 };

/* What each character is worth as a digit; BAD where it is none. */
#define B BAD
#define B8 B, B, B, B, B, B, B, B
#define B16 B8, B8
static const u16 digit[256] = {
    B16, B16, B16,
    0, 1, 2, 3, 4, 5, 6, 7, 8, 9, B, B, B, B, B, B,
    B, 10, 11, 12, 13, 14, 15, B, B8,
    B16, B16, B16, B16, B16, B16, B16, B16, B16, B16, B16
};
#undef B
#undef B8
#undef B16

/*
 * Reads the next line, which is there. Its bytes are written over its own characters. What ends the
 * digits must be the line's 0A, after an even number of them that is not 0.
 */
enum name next_frame(struct lines *lines, struct frame *frame)
{
    const byte *from = lines->at;
    byte *to = lines->at;
    u32 sum = 0, value;

    lines->line++;
    frame->bytes = to;
    while ((value = (u32)digit[from[0]] << 4 | digit[from[1]]) < BAD) {
        *to++ = (byte)value;
        sum += value;
        from += 2;
    }
    frame->count = (u32)(to - frame->bytes);
    if (*from != '\n' || frame->count == 0) {
        return FRAME;
    }
    lines->at += 2 * frame->count + 1;
    return sum % 256 == 0 ? OK : CHECK;
}

/*
 * The refusal of the line that was read last, with its column. FRAME: what ended the digits, which
 * still stands there. CHECK: the first check digit. FIELD: the first digit of the field, given by
 * the number of its first byte in the frame.
 */
struct answer refuse(enum name name, const struct lines *lines, const struct frame *frame,
                     u32 field)
{
    struct answer refusal = answer(name, lines->line);

    if (name == FRAME) {
        refusal.column = 2 * frame->count + 1 + (digit[lines->at[2 * frame->count]] < BAD);
    } else if (name == CHECK) {
        refusal.column = 2 * frame->count - 1;
    } else if (name == FIELD) {
        refusal.column = 2 * field + 1;
    }
    return refusal;
}
