/* The sentences that give names, and the header, which may give some too. */
#include "sentences.h"

#include <string.h>

/* Which roles a sheet has, in words. */
static void write_roles(uint32_t count, char *text, size_t room)
{
    if (count == 0) {
        snprintf(text, room, "no roles");
    } else if (count == 1) {
        snprintf(text, room, "role 0 only");
    } else {
        snprintf(text, room, "roles 0 to %lu", (unsigned long)count - 1);
    }
}

/* Keeps a name, which begins here, for a role that has none; no other role may have it. */
static int keep_name(struct reading *reading, const char *at, uint32_t role, const char *name)
{
    unsigned other = 0;

    if (name_of_role(reading->given, role) != NULL) {
        return fault(reading, at, "expected one name for a role: role %lu is %s already",
                     (unsigned long)role, name_of_role(reading->given, role));
    }
    if (role_of_name(reading->given, name, &other)) {
        return fault(reading, at, "expected a name of its own for role %lu: role %u is %s already",
                     (unsigned long)role, other, name);
    }
    add_name(reading->given, role, name);
    return 1;
}

/* Takes a role that the sheet has and its name, as 'role 3 is Adjust'. */
int need_name(struct reading *reading, int in_header)
{
    char name[NAME_BYTES], roles[40];
    const char *at, *why;
    uint32_t role;

    if (!need(reading, "role", "'role', its number, 'is' and a name, as in 'role 3 is Adjust'")) {
        return 0;
    }
    skip_blanks(reading);
    at = reading->at;
    if (!need_number(reading, "the number of a role, 0 to 63, as in 'role 3 is Adjust'",
                     ROLES_MOST - 1, &role)) {
        return 0;
    }
    if (!reading->quiet && reading->counted && role >= reading->role_count) {
        write_roles(reading->role_count, roles, sizeof roles);
        return fault(reading, at, "expected a role of the sheet: the sheet has %s", roles);
    }
    if (!need(reading, "is", "'is' and a name, as in 'role 3 is Adjust'")) {
        return 0;
    }
    skip_blanks(reading);
    at = reading->at;
    reading->at += strcspn(at, in_header ? ",#\n" : "#\n");
    why = clean_name(at, (size_t)(reading->at - at), name);
    return why != NULL ? fault(reading, at, "expected a name: %s", why)
                       : keep_name(reading, at, role, name);
}

/* Takes the names of the header, if there are any. */
static int need_names_of_header(struct reading *reading)
{
    if (!take(reading, ";")) {
        return need_end(reading, ", or ';' and names, as in '; role 3 is Adjust'");
    }
    if (!need_name(reading, 1)) {
        return 0;
    }
    while (take(reading, ",")) {
        if (!need_name(reading, 1)) {
            return 0;
        }
    }
    return need_end(reading, ", or ',' and another name");
}

/* Takes the brackets of the header, which say which roles there are, if they are there. */
static int need_brackets(struct reading *reading, uint32_t role_count)
{
    char brackets[40], expected[80];

    if (!comes(reading, "(") || role_count == 0) {
        return 1;
    }
    if (role_count == 1) {
        snprintf(brackets, sizeof brackets, "(0)");
    } else {
        snprintf(brackets, sizeof brackets, "(0 to %lu)", (unsigned long)role_count - 1);
    }
    snprintf(expected, sizeof expected, "'%s': so the %lu role%s counted", brackets,
             (unsigned long)role_count, role_count == 1 ? " is" : "s are");
    return need(reading, brackets, expected);
}

/* Takes the header, as 'a sheet of 8 roles', with its names. */
int need_header(struct reading *reading, uint32_t *role_count)
{
    static const char wanted[] = "'a sheet of' and the number of roles, as in 'a sheet of 8 roles'";

    if (!need(reading, "a sheet of", wanted)
        || !need_number(reading, "the number of roles, 1 to 64", 255, role_count)) {
        return 0;
    }
    if (*role_count == 1 ? !need(reading, "role", "'role', as there is 1")
                         : !need(reading, "roles", "'roles'")) {
        return 0;
    }
    reading->counted = 1;
    reading->role_count = *role_count;
    if (!need_brackets(reading, *role_count)) {
        return 0;
    }
    take(reading, "; its periodic rows and its triggers are each counted from 0");
    return need_names_of_header(reading);
}

/*
 * Finds the names of the whole file, since a name may be given after it is used. What is wrong is
 * passed over here, and is said when its sentence is read.
 */
void find_names(struct reading *reading, struct text text)
{
    uint32_t role_count;

    reading->quiet = 1;
    while (take_line(&text, &reading->line)) {
        reading->at = (const char *)reading->line.bytes;
        if (!need_prefix(reading)) {
            continue;
        }
        if (comes(reading, "role")) {
            need_name(reading, 0);
        } else if (!reading->counted && comes(reading, "a sheet of")) {
            need_header(reading, &role_count);
        }
    }
    reading->quiet = 0;
}
