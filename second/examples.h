/* What the examples have in common. */
#ifndef EXAMPLES_H
#define EXAMPLES_H

#include "form.h"

/* A sheet that was read, a state, an events buffer and requests: a bench to step on. */
struct bench {
    struct periodic periodic[PERIODIC_MOST];
    struct trigger trigger[TRIGGERS_MOST];
    uint16_t waiting[WAITING_LENGTH];
    struct set events;
    struct request list[64];
    struct tables tables;
    struct state state;
    struct requests requests;
    struct answer read;
};

/* A program that makes an output of a whole input. */
typedef void program(const uint8_t *input, size_t length, struct text *out);

/* The input of the day program that document 01 works out. */
extern const char worked_input[];

/* examples.c */
void check(const char *name, int right);
void check_named(const char *before, const char *name, int right);
void put_frames(struct text *out, const char *frames);
int is(struct answer found, unsigned number, uint32_t place);
void bench_bytes(struct bench *bench, const uint8_t *bytes, size_t length);
void bench_frames(struct bench *bench, const char *frames);
struct answer read_of(const char *sheet);
struct answer read_frames(const char *frames);
int gives(program *run, const char *input, const char *output);
int refuses(program *run, const char *frames, struct answer refusal);

/* exwrites.c: the examples of document 02 [1] */
void writer_examples(void);

/* excolumns.c, exlines.c: the examples of document 02 [2] */
void column_examples(void);
void line_examples(void);

#endif
