/* Sentences and the frames that they stand for: what the parts of frames share. */
#ifndef VIEW_SENTENCES_H
#define VIEW_SENTENCES_H

#include "names.h"
#include "rows.h"

enum { DIGITS_MOST = 2 * FRAME_MOST };

/* A sentence that is read. Its text is ended by a line end or by a 0 byte. */
struct reading {
    struct line line;          /* all of its line; bytes are NULL past the last line */
    unsigned long number;      /* of the line, from 1 */
    const char *at;            /* what is still to be read */
    const struct names *names; /* all names of the file */
    struct names *given;       /* those that were given so far */
    int quiet;                 /* whether nothing is said of what is wrong */
    int counted;               /* whether the file says how many roles there are, */
    uint32_t role_count;       /* and how many */
};

/* A minute as it is written: as a number or as a clock, which may have its day. */
struct minute {
    const char *at;
    uint32_t number;
    int clock, dated;
};

/* A sentence that was read, and the digits of its frame. */
struct made {
    struct line line;
    unsigned long number;
    char digits[DIGITS_MOST + 1];
};

/* How far a file was read: what may come next follows from it. */
enum stage {
    BEFORE_SHEET,
    IN_SHEET,
    ON_TAPE,
    AFTER_DAY
};

/* The frames of a file, and how many of them are of which kind. */
struct making {
    enum stage stage;
    unsigned long periodic_count, trigger_count, request_count;
    size_t count, room;
    struct made *list;
};

/* sentence_fault.c: it says what is wrong and where, and gives back 0 */
int fault(const struct reading *reading, const char *at, const char *format, ...);

/* sentence_text.c: each gives 0 where it is not there; those that need it say so */
int ends(const char *at);
int in_word(const char *at);
int stands(const char *at, const char *phrase);
void skip_blanks(struct reading *reading);
int comes(struct reading *reading, const char *phrase);
int comes_in_capitals(struct reading *reading, const char *phrase);
int take(struct reading *reading, const char *phrase);
int need(struct reading *reading, const char *phrase, const char *expected);
int need_end(struct reading *reading, const char *other);
int is_clock(const char *at);
int need_number(struct reading *reading, const char *expected, uint32_t most, uint32_t *number);
int need_prefix(struct reading *reading);

/* sentence_time.c */
int need_minute(struct reading *reading, uint32_t most, struct minute *minute);
int need_time(struct reading *reading, uint32_t most, uint32_t *number);
int need_own_clock(struct reading *reading, const struct minute *minute);
void write_minute(char *text, size_t room, uint32_t number, const struct minute *like);

/* sentence_role.c */
int need_event(struct reading *reading, unsigned *event);
int need_condition(struct reading *reading, unsigned *condition);

/* sentence_window.c */
int need_window(struct reading *reading, struct periodic *row);

/* sentence_names.c */
int need_name(struct reading *reading, int in_header);
int need_header(struct reading *reading, uint32_t *role_count);
void find_names(struct reading *reading, struct text text);

/* sentence_rows.c: the frame of a sentence that begins here */
int frame_of_header(struct reading *reading, struct frame *frame);
int frame_of_periodic(struct reading *reading, struct frame *frame);
int frame_of_trigger(struct reading *reading, struct frame *frame);
int frame_of_end(struct reading *reading, const struct making *making, struct frame *frame);
int frame_of_request(struct reading *reading, struct frame *frame);
int frame_of_last(struct reading *reading, struct frame *frame);

/* sentences.c: 0 where something is wrong, which is said; -1 where there is no memory */
int make_frames(struct reading *reading, struct text text, struct making *making);

/* said_back.c: 0 where a frame does not say what its sentence says; -1 where it cannot be tried */
int said_back(const struct names *names, const struct making *making);

/* all_said.c: 0 where a sentence has no frame of its own, or a name another role; -1 as above */
int all_said(const struct names *names, const struct making *making, struct text text);

/* same_words.c */
int same_words(const char *said, const char *given, const struct names *names);

#endif
