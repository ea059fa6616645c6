/* Inputs: a file that the proved programs read, all of standard input, and what a header says. */
#ifndef VIEW_INPUTS_H
#define VIEW_INPUTS_H

#include "hex.h"

enum { KEPT_MOST = 65537 }; /* the proved programs read no more */

/* inputs.c */
int read_input(const char *name, uint8_t *bytes, size_t *length);
uint8_t *read_all(size_t *length);
unsigned roles_of(struct text text);

#endif
