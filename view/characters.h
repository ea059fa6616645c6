/* Characters of UTF-8, as names have them. */
#ifndef VIEW_CHARACTERS_H
#define VIEW_CHARACTERS_H

#include <stddef.h>
#include <stdint.h>

/* characters.c */
size_t character_at(const char *text, uint32_t *number);
int printable(uint32_t number);

#endif
