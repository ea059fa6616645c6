/* The peer's program: it reads an input, tests all of it, and prints its day. */
#include "peer.h"

/* A frame as a line, with its check; where the next line goes. */
static byte *put_line(byte *to, const byte *frame, u32 count)
{
    static const char glyph[] = "0123456789ABCDEF";
    u32 i, sum = 0;

    for (i = 0; i < count; i++) {
        sum += frame[i];
        *to++ = (byte)glyph[frame[i] >> 4];
        *to++ = (byte)glyph[frame[i] & 15];
    }
    sum = (256 - sum % 256) % 256;
    *to++ = (byte)glyph[sum >> 4];
    *to++ = (byte)glyph[sum & 15];
    *to++ = '\n';
    return to;
}

/* A number over its bytes, high byte first. */
static void put_number(byte *to, u64 value, u32 count)
{
    while (count-- > 0) {
        to[count] = (byte)value;
        value >>= 8;
    }
}

/* The line of a refusal: its number, its place and its column. */
static byte *put_refusal(byte *to, struct answer refusal)
{
    byte frame[10] = {0xE0};

    frame[1] = (byte)refusal.name;
    put_number(frame + 2, refusal.place, 4);
    put_number(frame + 6, refusal.column, 4);
    return put_line(to, frame, sizeof frame);
}

/* Of a role's two events at most one has a nonblocked member, and one has where either is there. */
static byte count_live(const u16 *events)
{
    u32 r, count = 0;

    for (r = 0; r < ROLES; r++) {
        count += (events[2 * r] | events[2 * r + 1]) != 0;
    }
    return (byte)count;
}

/* The line of an instant: the roles after it, and how many events have a nonblocked member. */
static byte *put_minute(byte *to, u32 instant, const struct state *state)
{
    byte frame[14] = {0x50};

    put_number(frame + 1, instant, 4);
    put_number(frame + 5, state->roles, 8);
    frame[13] = count_live(state->events);
    return put_line(to, frame, sizeof frame);
}

/* The instants 0 to the last, from the fresh state; 0 where a step refused what was tested. */
static byte *run(byte *to, const struct tables *tables, const struct tape *tape)
{
    u16 waiting[WAITING_NUMBERS] = {0}, events[EVENTS];
    struct state state = {0, 0, waiting, events, WAITING_NUMBERS, EVENTS};
    u32 t, from, next = 0;

    for (t = 0; t <= tape->last; t++) {
        from = next;
        while (next < tape->count && tape->instant[next] == t) {
            next++;
        }
        if (step(tables, tape->request + from, next - from, &state).name != OK) {
            return 0;
        }
        to = put_minute(to, t, &state);
    }
    return to;
}

/* The lines of the input up to and with the first that begins with F0, which are its sheet. */
static struct lines sheet_part(byte *input, u32 length)
{
    struct lines part = {input, input + length, 0};
    byte *start;

    while (part.at < part.end) {
        start = part.at;
        part.at = memchr(start, '\n', (unsigned long)(part.end - start));
        part.at = part.at ? part.at + 1 : part.end;
        part.line++;
        if (start[0] == 'F' && start[1] == '0') {
            break;
        }
    }
    return part;
}

/* The whole day of an input, whose length is followed by two bytes of 0. */
static byte *day(byte *to, byte *input, u32 length, struct tape *tape)
{
    struct periodic periodic[PERIODIC_ROWS];
    struct trigger trigger[TRIGGER_ROWS];
    struct tables tables = {periodic, trigger, PERIODIC_ROWS, TRIGGER_ROWS, 0, 0, 0};
    struct answer found;
    struct lines rest;

    if (length > INPUT_BYTES) {
        return put_refusal(to, answer(LENGTH, 0));
    }
    rest = sheet_part(input, length);
    found = read_sheet(input, (u32)(rest.at - input), &tables);
    if (found.name == OK) {
        found = read_tape(rest, tables.roles, tape);
    }
    return found.name == OK ? run(to, &tables, tape) : put_refusal(to, found);
}

/* Reads until the input ends or the room is full. */
static u32 read_input(byte *input, u32 room)
{
    u32 length = 0;
    long got;

    while (length < room && (got = read(0, input + length, room - length)) > 0) {
        length += (u32)got;
    }
    return length;
}

/* Writes all; whether it could. */
static int write_output(const byte *from, const byte *end)
{
    long put;

    while (from < end) {
        put = write(1, from, (unsigned long)(end - from));
        if (put <= 0) {
            return 0;
        }
        from += put;
    }
    return 1;
}

/* The status is 1 where a step refused what was tested, or where not all could be written. */
int main(void)
{
    static byte input[INPUT_BYTES + 3], output[OUTPUT_BYTES];
    static struct tape tape;
    u32 length = read_input(input, INPUT_BYTES + 1);
    byte *end = day(output, input, length, &tape);

    return end != 0 && write_output(output, end) ? 0 : 1;
}
