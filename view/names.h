/* The names that a person gives to roles, as in --roles 3=Adjust,7=Release. */
#ifndef VIEW_NAMES_H
#define VIEW_NAMES_H

#include <stddef.h>

enum {
    ROLES_MOST = 64,
    NAME_CHARACTERS = 40,
    NAME_BYTES = 4 * NAME_CHARACTERS + 1
};

/* A role and what it is called. */
struct name {
    unsigned role;
    char text[NAME_BYTES];
};

/* The names in the order in which they were given; a role has one at most, no two the same. */
struct names {
    size_t count;
    struct name list[ROLES_MOST];
};

/* What a call of a view begins with: whether its words are only tried, and the names. */
struct call {
    int try;
    struct names names;
};

/* names.c: what is wrong comes back as words, or as NULL where nothing is */
const char *clean_name(const char *text, size_t length, char *name);
const char *add_name(struct names *names, unsigned role, const char *name);
const char *name_of_role(const struct names *names, unsigned role);
int role_of_name(const struct names *names, const char *name, unsigned *role);

/* roles.c: the option --roles */
int take_call(struct call *call, const char *verb, int count, char **words);
int names_fit(const struct names *names, const char *verb, unsigned role_count);

#endif
