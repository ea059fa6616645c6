/* Lines, the frames that they stand for, and lines shown safely. */
#ifndef VIEW_HEX_H
#define VIEW_HEX_H

#include <stddef.h>
#include <stdint.h>
#include <stdio.h>

enum {
    FRAME_MOST = 18, /* bytes of the longest frame that passes */
    SHOWN_MOST = 72  /* bytes of a line that are shown */
};

/* The kinds of frames: of a sheet, of a tape, and of what the day program prints. */
enum {
    HEADER = 0x10,
    PERIODIC = 0x20,
    TRIGGER = 0x30,
    END = 0xF0,
    REQUEST_FRAME = 0x40,
    LAST_FRAME = 0xF1,
    MINUTE_FRAME = 0x50,
    REFUSAL_FRAME = 0xE0
};

/* One line without its 0A, and whether the 0A was there. */
struct line {
    const uint8_t *bytes;
    size_t length;
    int ended;
};

/* What is left of a text. */
struct text {
    const uint8_t *bytes;
    size_t length;
};

/* The bytes of a frame, its check among them. */
struct frame {
    uint8_t bytes[FRAME_MOST];
    size_t length;
};

/* hex.c */
int take_line(struct text *text, struct line *line);
int begins(const struct line *line, const char *digits);
int frame_of(const struct line *line, struct frame *frame);
unsigned sum_of(const struct frame *frame, size_t bytes);
uint32_t number_at(const struct frame *frame, size_t at, size_t bytes);
unsigned byte_in(const struct line *line, size_t at);
uint32_t number_in(const struct line *line, size_t at, size_t bytes);
void show_line(FILE *out, const struct line *line);

#endif
