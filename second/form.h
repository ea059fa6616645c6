/* The neutral form of the commands read, step, write and line; FORMAT.md says it in words. */
#ifndef FORM_H
#define FORM_H

#include "second.h"

enum {
    FORM_SHEET_MOST = 0x8000,
    FORM_PERIODIC_MOST = 0x0100,
    FORM_TRIGGERS_MOST = 0x0200,
    FORM_WAITING_MOST = 0x2000,
    FORM_EVENTS_MOST = 0x0100,
    FORM_REQUESTS_MOST = 0x0400,
    FORM_BUFFER_MOST = 0x8000,
    FORM_LINE_MOST = 0x18000
};

/* The two lent tables of a case, their counts, and how many rows of them are given. */
struct table_case {
    uint32_t periodic_length;
    uint32_t trigger_length;
    uint32_t role_count;
    uint32_t periodic_count;
    uint32_t trigger_count;
    uint32_t periodic_given;
    uint32_t trigger_given;
    struct periodic periodic[FORM_PERIODIC_MOST];
    struct trigger trigger[FORM_TRIGGERS_MOST];
};

/* A case of the command step: everything that a public step takes. */
struct step_case {
    struct table_case tables;
    uint32_t waiting_length;
    uint32_t events_length;
    uint32_t instant;
    uint64_t roles;
    uint16_t fill;
    uint32_t request_count;
    uint16_t waiting[FORM_WAITING_MOST];
    struct request requests[FORM_REQUESTS_MOST];
};

/* A case of the command write: everything that the writer takes. */
struct write_case {
    struct table_case tables;
    uint32_t buffer_length;
    uint8_t fill;
};

/* A case of the command read, without its sheet. */
struct read_case {
    uint32_t sheet_length;
    uint32_t periodic_length;
    uint32_t trigger_length;
    uint8_t fill;
};

/* A case of the command line, without its sheet and its tape. */
struct line_case {
    uint32_t sheet_length;
    uint32_t tape_length;
    uint8_t number;
    uint32_t place;
};

/* tableform.c */
void put_next(struct text *out, uint64_t value, unsigned digits);
void put_answer(struct text *out, struct answer found);
void put_periodic_row(struct text *out, const struct periodic *row);
void put_trigger_row(struct text *out, const struct trigger *row);
void put_rows(struct text *out, const struct table_case *from);
void put_tables(struct text *out, const struct table_case *from);
uint64_t take_next(unsigned digits, uint64_t most, unsigned after, const char *what);
uint32_t take_periodic_length(void);
uint32_t take_trigger_length(void);
void take_counts(struct table_case *to);
void take_given(struct table_case *to, unsigned after);
void take_rows(struct table_case *to);
void take_tables(struct table_case *to);
struct tables tables_given(const struct table_case *given);

/* readform.c, stepform.c, writeform.c, lineform.c */
void put_read_case(struct text *out, const struct read_case *from, const uint8_t *sheet);
int all_bytes(const void *from, size_t length, uint8_t value);
void put_step_case(struct text *out, const struct step_case *from);
void put_write_case(struct text *out, const struct write_case *from);
void put_line_case(struct text *out, const struct line_case *from, const uint8_t *sheet,
                   const uint8_t *tape);

#endif
