/* Two sentences side by side: texts, and what is taken off them. */
#ifndef VIEW_SAME_WORDS_H
#define VIEW_SAME_WORDS_H

/* same_text.c */
char *plain(const char *text);
const char *after_place(const char *text);
int starts(const char *text, const char *with);
int take_value(const char **at, unsigned long long *value);
int take_same(const char **said, const char **given);
int same_part(const char *said, const char *said_end, const char *given, const char *given_end);

#endif
