/* Roles in a sentence, by number or by name, and the events and conditions that they stand in. */
#include "sentences.h"

#include <string.h>

enum {
    NAMES_SAID = 5, /* names that are said of many */
    LIST_BYTES = NAMES_SAID * (NAME_BYTES + 2) + 40
};

/* Whether a sentence goes on here after a role: no name has these words and marks. */
static int goes_on(const char *at)
{
    static const char *const phrases[] = {"at priority", "and enable",  "and disable",
                                          "is enabled",  "is not enabled"};
    size_t i;

    if (ends(at) || *at == ',' || *at == ':' || *at == ';') {
        return 1;
    }
    for (i = 0; i < sizeof phrases / sizeof phrases[0]; i++) {
        if (at[-1] == ' ' && stands(at, phrases[i])) {
            return 1;
        }
    }
    return 0;
}

/* Whether a role's number stands from one place to another, and which. */
static int is_number(const char *from, const char *to, unsigned *role)
{
    *role = 0;
    if (from == to) {
        return 0;
    }
    for (; from < to && *role < ROLES_MOST; from++) {
        if (strchr("0123456789", *from) == NULL) {
            return 0;
        }
        *role = 10 * *role + (unsigned)(*from - '0');
    }
    return *role < ROLES_MOST;
}

/* Whether a role stands from one place to another: its name, or its number after some word. */
static int is_role(const struct reading *reading, const char *from, const char *to,
                   const char *before, unsigned *role)
{
    size_t length = strlen(before);
    char name[NAME_BYTES];

    if (clean_name(from, (size_t)(to - from), name) == NULL) {
        return role_of_name(reading->names, name, role);
    }
    if (strncmp(from, before, length) != 0) {
        return 0;
    }
    from += length + (length > 0 ? strspn(from + length, " ") : 0);
    return is_number(from, to, role);
}

/*
 * Takes the role that stands here, the longest one of which the words are: what comes behind a
 * role may be misspelt, and should then be what is wrong. 0 where there is none.
 */
static int take_role(struct reading *reading, const char *before, unsigned *role)
{
    const char *begin, *at, *after = NULL;
    unsigned found;

    skip_blanks(reading);
    begin = reading->at;
    for (at = begin; !goes_on(at); at++) {
        if (*at != ' ' && (at[1] == ' ' || goes_on(at + 1))
            && is_role(reading, begin, at + 1, before, &found)) {
            *role = found;
            after = at + 1;
        }
    }
    if (after == NULL) {
        return 0;
    }
    reading->at = after;
    return 1;
}

/* Writes which number is the last of a role, and begins what is said of names. */
static void write_numbers(const struct reading *reading, char *text)
{
    size_t count = reading->names->count, used;

    snprintf(text, LIST_BYTES, "0 to %lu",
             reading->counted && reading->role_count >= 2 && reading->role_count < ROLES_MOST
                 ? (unsigned long)reading->role_count - 1 : ROLES_MOST - 1ul);
    used = strlen(text);
    snprintf(text + used, LIST_BYTES - used,
             count == 0 ? " (the file gives no names)"
             : count == 1 ? ", or the name" : ", or one of the names");
}

/* Writes which roles there are, as '0 to 7, or one of the names Adjust, Release'. */
static void write_roles(const struct reading *reading, char *text)
{
    const struct names *names = reading->names;
    size_t i, used, said = names->count < NAMES_SAID ? names->count : NAMES_SAID;

    write_numbers(reading, text);
    for (i = 0; i < said; i++) {
        used = strlen(text);
        snprintf(text + used, LIST_BYTES - used, i == 0 ? " %s" : ", %s", names->list[i].text);
    }
    if (said < names->count) {
        used = strlen(text);
        snprintf(text + used, LIST_BYTES - used, " and %lu more",
                 (unsigned long)(names->count - said));
    }
}

/* Takes an event, as 'enable 3' or 'disable Adjust'. */
int need_event(struct reading *reading, unsigned *event)
{
    char list[LIST_BYTES];
    unsigned role;
    int enable = take(reading, "enable");

    if (!enable && !need(reading, "disable", "'enable' or 'disable' and a role")) {
        return 0;
    }
    if (take_role(reading, "", &role)) {
        *event = 2 * role + (enable ? 1 : 0);
        return 1;
    }
    write_roles(reading, list);
    if (comes(reading, "role")) {
        return fault(reading, reading->at, "expected a role without the word 'role': its number,"
                                           " %s", list);
    }
    return fault(reading, reading->at, "expected a role: its number, %s", list);
}

/* Takes a condition, as 'role 3 is not enabled' or 'Adjust is enabled'. */
int need_condition(struct reading *reading, unsigned *condition)
{
    char list[LIST_BYTES];
    unsigned role;

    if (!take_role(reading, "role ", &role)) {
        write_roles(reading, list);
        return fault(reading, reading->at, "expected a condition: 'role' and its number, %s;"
                                           " then 'is enabled' or 'is not enabled'", list);
    }
    if (take(reading, "is not enabled")) {
        *condition = 2 * role;
        return 1;
    }
    *condition = 2 * role + 1;
    return need(reading, "is enabled", "'is enabled' or 'is not enabled'");
}
