/* The words of document 01 that every part of this program shares. */
#ifndef SECOND_H
#define SECOND_H

#include <stddef.h>
#include <stdint.h>

enum {
    ROLES_MOST = 64,
    EVENTS = 128,
    PRIORITIES = 16,
    PERIODIC_MOST = 128,
    TRIGGERS_MOST = 256,
    REQUESTS_MOST = 32,
    BODY_MOST = 4,
    DELAY_MOST = 60,
    PERIOD_MOST = 10080,
    WAITING_ROWS = 61,
    WAITING_LENGTH = 7808,
    SHEET_MOST = 16384,
    SHEET_VERSION = 1,
    INPUT_MOST = 65536,
    DAY_LAST_MOST = 10080,
    FRAME_MOST = 32768,
    TAPE_MOST = 3500,
    TEXT_MOST = 400000
};

#define INSTANT_MOST UINT32_C(16777215)
#define NO_END UINT32_C(4294967295)

/* The numbers of "What comes back". */
enum {
    OK = 0,
    LENGTH = 1,
    FRAME = 2,
    CHECK = 3,
    KIND = 4,
    FIELD = 5,
    TOO_MANY = 6,
    COUNT = 7,
    LOOP = 8,
    REQUEST = 9,
    LAST = 10
};

/* The bytes of the frames at which their fields start; byte 0 is the kind. */
enum {
    VERSION_AT = 1, ROLES_AT = 2,
    BEGIN_AT = 1, END_AT = 5, PERIOD_AT = 9, FIRST_AT = 11, RUN_AT = 13, EVENT_AT = 15,
    PRIORITY_AT = 16,
    EVENT_COUNT_AT = 1, CONDITION_COUNT_AT = 2, BODY_AT = 3,
    INSTANT_AT = 1
};

/* An answer is its number, its place and its column, which is 0 where there is none. */
struct answer {
    unsigned number;
    uint32_t place;
    uint32_t column;
};

/* A periodic row, in the order of its frame. */
struct periodic {
    uint32_t begin;
    uint32_t end;
    uint16_t period;
    uint16_t first;
    uint16_t run;
    uint8_t event;
    uint8_t priority;
};

/* Its bytes are its fields and nothing between them. */
typedef char periodic_row_is_16_bytes[sizeof(struct periodic) == 16 ? 1 : -1];

/* A trigger; the places past its counts are unused. */
struct trigger {
    uint8_t event_count;
    uint8_t condition_count;
    uint8_t events[BODY_MOST];
    uint8_t conditions[BODY_MOST];
    uint8_t head;
    uint8_t priority;
    uint8_t delay;
};

typedef char trigger_row_is_13_bytes[sizeof(struct trigger) == 13 ? 1 : -1];

/* A request of one instant. */
struct request {
    uint8_t event;
    uint8_t priority;
    uint8_t delay;
};

/* A set of prioritized events: for each event the set of its priorities. */
struct set {
    uint16_t priorities[EVENTS];
};

/* The lent tables with their lengths and the counts that go with them. */
struct tables {
    const struct periodic *periodic;
    size_t periodic_length;
    const struct trigger *trigger;
    size_t trigger_length;
    uint32_t role_count;
    uint32_t periodic_count;
    uint32_t trigger_count;
};

/* The state: the next instant, the enabled roles, the waiting buffer. */
struct state {
    uint32_t instant;
    uint64_t roles;
    uint16_t *waiting;
    size_t waiting_length;
};

/* The requests of one instant, a lent list. */
struct requests {
    const struct request *list;
    size_t count;
};

/* What a reader finds in a sheet. */
struct sheet {
    uint32_t role_count;
    uint32_t periodic_count;
    uint32_t trigger_count;
    struct periodic periodic[PERIODIC_MOST];
    struct trigger trigger[TRIGGERS_MOST];
};

/* The two tables lent to the reader. */
struct lent {
    struct periodic *periodic;
    size_t periodic_length;
    struct trigger *trigger;
    size_t trigger_length;
};

/* What the day program finds in a tape: requests with their instants. */
struct tape {
    size_t count;
    uint32_t instants[TAPE_MOST];
    struct request requests[TAPE_MOST];
    uint32_t last;
};

/* Bytes that are being walked line by line; lines count from 1. */
struct cursor {
    const uint8_t *bytes;
    size_t length;
    size_t at;
    uint32_t line;
};

/* The part of an input that is sheet: how many bytes and how many lines. */
struct part {
    size_t length;
    uint32_t lines;
};

/* One line without its 0A, and whether the 0A was there. */
struct line {
    const uint8_t *bytes;
    size_t length;
    int ended;
};

/* A part of the sheet or of the tape: from a byte, counted from 0, up to another. */
struct shown {
    int of_tape;
    size_t from;
    size_t to;
};

/* The bytes that a line of hexadecimal digits stands for. */
struct frame {
    uint8_t bytes[FRAME_MOST];
    size_t length;
};

/* A page of bytes to be printed. */
struct text {
    size_t length;
    uint8_t bytes[TEXT_MOST];
};

/* text.c */
struct answer answer(unsigned number, uint32_t place);
struct answer answer_at(unsigned number, uint32_t place, uint32_t column);
void text_clear(struct text *text);
void text_byte(struct text *text, unsigned byte);
void text_bytes(struct text *text, const uint8_t *bytes, size_t length);
void text_hex(struct text *text, uint64_t value, unsigned digits);
void text_frame(struct text *text, const uint8_t *bytes, size_t length);
void text_print(const struct text *text);

/* rules.c */
unsigned conf(unsigned event);
int holds(unsigned condition, uint64_t roles);
int due(const struct periodic *row, uint32_t t);
int in_set(const struct set *set, unsigned priority, unsigned event);
void add(struct set *set, unsigned priority, unsigned event);
int same_set(const struct set *one, const struct set *other);
struct set unblocked_by(const struct set *set);
struct set nonblocked(const struct set *set);
unsigned nonblocked_events(const struct set *set);
int request_right(const struct request *request, uint32_t role_count);

/* fields.c */
unsigned bad_header(unsigned version, uint32_t role_count);
unsigned bad_periodic(const struct periodic *row, uint32_t role_count);
unsigned bad_trigger(const struct trigger *row, uint32_t role_count);

/* loop.c */
struct answer loop_test(const struct trigger *trigger, uint32_t count);

/* instant.c */
struct set givens_of(const struct tables *tables, const struct state *state,
                     const struct requests *requests);
struct set caused(const struct tables *tables, uint64_t roles,
                  const struct set *givens, const struct set *set);
struct set solution(const struct tables *tables, uint64_t roles,
                    const struct set *givens);
void do_instant(const struct tables *tables, struct state *state,
                uint16_t *events, const struct requests *requests);

/* tables.c */
struct tables tables_of(const struct sheet *sheet, const struct lent *lent);
int table_lengths_right(const struct tables *tables);
int table_counts_right(const struct tables *tables);
struct answer field_and_loop(const struct tables *tables);

/* step.c */
struct answer step(const struct tables *tables, struct state *state,
                   uint16_t *events, size_t events_length,
                   const struct requests *requests);

/* lines.c */
struct cursor cursor_at(const uint8_t *bytes, size_t length, uint32_t line);
int next_line(struct cursor *cursor, struct line *line);
uint32_t count_lines(const uint8_t *bytes, size_t length);
struct answer frame_and_check(const struct line *line, uint32_t number,
                              struct frame *frame);
struct answer field_answer(uint32_t number, unsigned at);
uint32_t number_at(const struct frame *frame, size_t at, size_t bytes);

/* reader.c */
struct answer read_sheet(const uint8_t *bytes, size_t length,
                         const struct lent *lent, struct sheet *sheet);

/* frames.c */
size_t put_number(uint8_t *bytes, uint32_t value, size_t count);
void put_header_of(struct text *out, unsigned version, uint32_t role_count);
void put_periodic(struct text *out, const struct periodic *row);
void put_trigger(struct text *out, const struct trigger *row);
void put_end_of(struct text *out, uint32_t periodic_count, uint32_t trigger_count);

/* writer.c */
struct answer write_sheet(const struct tables *tables, uint8_t *buffer, size_t buffer_length,
                          size_t *written);

/* shown.c */
struct shown faulty_line(const uint8_t *sheet, size_t sheet_length,
                         const uint8_t *tape, size_t tape_length, struct answer found);

/* tape.c */
struct answer read_tape(const uint8_t *bytes, size_t length,
                        uint32_t first_line, uint32_t role_count,
                        struct tape *tape);

/* whole.c: what the programs of a day and of a sheet have in common */
size_t take_input(uint8_t *input);
void put_refusal(struct text *out, struct answer refusal);
struct answer test_sheet(const uint8_t *input, size_t length, const struct lent *lent,
                         struct sheet *sheet, struct part *part);

/* day.c */
void day(const uint8_t *input, size_t length, struct text *out);

/* resend.c */
void resend(const uint8_t *input, size_t length, struct text *out);

/* readform.c, stepform.c, writeform.c, lineform.c, form.c: the commands of cases */
int command_read(void);
int command_step(void);
int command_write(void);
int command_line(void);
void bad_form(const char *what);
int more_cases(void);
uint64_t form_hex(unsigned digits, uint64_t most, const char *what);
void form_byte(unsigned byte, const char *what);
unsigned form_raw(const char *what);
void form_bytes(uint8_t *to, uint32_t count, const char *what);

/* The other commands. */
int command_day(void);
int command_sheet(void);
int command_rounds(uint64_t rounds, uint64_t seed);
int command_brute(uint64_t cases, uint64_t seed);
int command_examples(void);
int command_kinds(void);
int command_gen(uint64_t seed, const char *kind, uint64_t cases);

/* brute.c, also used by the examples */
unsigned count_solutions(const struct tables *tables, uint64_t roles,
                         const struct set *givens, struct set *found);

#endif
