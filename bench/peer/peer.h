/*
 * The peer: document 01's day program, with the columns of request [2], written in C for speed, to
 * be measured beside ours.
 * It includes nothing, for the kit's compiler has no headers.
 */
#ifndef PEER_H
#define PEER_H

typedef unsigned char byte;
typedef unsigned short u16;
typedef unsigned int u32;
typedef unsigned long long u64;

typedef char u16_has_16_bits[sizeof(u16) == 2 ? 1 : -1];
typedef char u32_has_32_bits[sizeof(u32) == 4 ? 1 : -1];
typedef char u64_has_64_bits[sizeof(u64) == 8 ? 1 : -1];

enum {
    ROLES = 64,
    EVENTS = 128,
    PRIORITIES = 16,
    PERIODIC_ROWS = 128,
    TRIGGER_ROWS = 256,
    REQUESTS = 32,
    BODY_EVENTS = 4,
    BODY_CONDITIONS = 4,
    LONGEST_DELAY = 60,
    LONGEST_PERIOD = 10080,
    WAITING_ROWS = 61,
    WAITING_NUMBERS = WAITING_ROWS * EVENTS,
    LAST_INSTANT = 16777215,
    SHEET_BYTES = 16384,
    INPUT_BYTES = 65536,
    LONGEST_DAY = 10080,
    REQUEST_LINE = 19,
    TAPE_REQUESTS = INPUT_BYTES / REQUEST_LINE,
    DAY_LINE = 31,
    OUTPUT_BYTES = (LONGEST_DAY + 1) * DAY_LINE
};

#define NO_END 0xFFFFFFFFu

/* What comes back: the answers by their numbers. */
enum name { OK, LENGTH, FRAME, CHECK, KIND, FIELD, TOO_MANY, COUNT, LOOP, REQUEST, LAST };

/* An answer is its name, its place and its column, from 1; 0 where it has none. */
struct answer {
    enum name name;
    u32 place, column;
};

/* A periodic row, in the order of its frame. */
struct periodic {
    u32 begin, end;
    u16 period, first, run;
    byte event, priority;
};

/* A trigger; the places past its counts are unused. */
struct trigger {
    byte events, conditions;
    byte event[BODY_EVENTS];
    byte condition[BODY_CONDITIONS];
    byte head, priority, delay;
};

/* A request of one instant. */
struct request {
    byte event, priority, delay;
};

/* The lent tables, with their lengths in rows, and the counts of the sheet. */
struct tables {
    struct periodic *periodic;
    struct trigger *trigger;
    u32 periodic_length, trigger_length;
    u32 roles, periodics, triggers;
};

/* The state and the events buffer as they are lent to a step, with their lengths in numbers. */
struct state {
    u32 instant;
    u64 roles;
    u16 *waiting, *events;
    u32 waiting_length, events_length;
};

/* The requests of a tape in order, and its last instant. */
struct tape {
    u32 count, last;
    u32 instant[TAPE_REQUESTS];
    struct request request[TAPE_REQUESTS];
};

/* Lines that are read one after the other. The byte at their end may be read: it is 0. */
struct lines {
    byte *at, *end;
    u32 line;
};

/* The frame of a line: its bytes, which stand where the line stood, and how many they are. */
struct frame {
    const byte *bytes;
    u32 count;
};

/* An answer without a column. */
static inline struct answer answer(enum name name, u32 place)
{
    struct answer a;

    a.name = name;
    a.place = place;
    a.column = 0;
    return a;
}

/* Two bytes as a number, high byte first. */
static inline u32 number2(const byte *bytes)
{
    return (u32)bytes[0] << 8 | bytes[1];
}

/* Four bytes as a number, high byte first. */
static inline u32 number4(const byte *bytes)
{
    return number2(bytes) << 16 | number2(bytes + 2);
}

/*
 * Whether an event has a nonblocked member: its highest priority against the highest of the
 * conflicting event, where disable wins a tie. (x & ~y) > y says that the highest bit of x stands
 * above that of y; a shift by one more lets the tie count.
 */
static inline int live(const u16 *events, u32 event)
{
    u32 own = (u32)events[event] << (1 - (event & 1));
    u32 against = events[event ^ 1];

    return (own & ~against) > against;
}

/* frames.c */
enum name next_frame(struct lines *lines, struct frame *frame);
struct answer refuse(enum name name, const struct lines *lines, const struct frame *frame,
                     u32 field);

/* loop.c */
struct answer loop_test(const struct trigger *trigger, u32 count, byte *levels);

/* sheet.c */
struct answer read_sheet(byte *sheet, u32 length, struct tables *tables);

/* tape.c */
struct answer read_tape(struct lines lines, u32 roles, struct tape *tape);

/* solve.c */
void solve(const struct tables *tables, const byte *levels, struct state *state);

/* step.c */
struct answer step(const struct tables *tables, const struct request *asked, u32 count,
                   struct state *state);

/* The C library. */
void *memchr(const void *bytes, int value, unsigned long length);
void *memcpy(void *to, const void *from, unsigned long length);
void *memset(void *bytes, int value, unsigned long length);
long read(int file, void *bytes, unsigned long length);
long write(int file, const void *bytes, unsigned long length);

#endif
