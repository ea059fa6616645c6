/* The option --roles: parts ROLE=NAME with commas between them, and blanks wherever one likes. */
#include "names.h"

#include <stdio.h>
#include <string.h>

/* Takes blanks. */
static void take_blanks(const char **at)
{
    *at += strspn(*at, " ");
}

/* Takes a role of one or two digits; 0 when there is none. */
static int take_role(const char **at, unsigned *role)
{
    size_t i, digits = strspn(*at, "0123456789");

    *role = 0;
    for (i = 0; i < digits && i < 2; i++) {
        *role = 10 * *role + (unsigned)((*at)[i] - '0');
    }
    *at += digits;
    return digits >= 1 && digits <= 2 && *role < ROLES_MOST;
}

/* Takes one part ROLE=NAME; what is wrong with it, or nothing. */
static const char *take_part(struct names *names, const char **at)
{
    char name[NAME_BYTES];
    const char *why;
    unsigned role;
    size_t length;
    int taken;

    take_blanks(at);
    taken = take_role(at, &role);
    take_blanks(at);
    if (!taken || **at != '=') {
        return "it takes a role from 0 to 63, '=' and a name, as in 3=Adjust";
    }
    *at += 1;
    length = strcspn(*at, ",");
    why = clean_name(*at, length, name);
    *at += length;
    return why != NULL ? why : add_name(names, role, name);
}

/* Takes the list; 0 for a good one, else the number of its wrong part and what is wrong with it. */
static unsigned take_list(struct names *names, const char *list, const char **why)
{
    unsigned part = 1;

    *why = take_part(names, &list);
    while (*why == NULL && *list == ',') {
        list++;
        part++;
        *why = take_part(names, &list);
    }
    return *why == NULL ? 0 : part;
}

/*
 * Takes what the call of a view begins with, [--try] [--roles LIST], and gives back where its
 * further words begin; 0 where the list is wrong, and one line says so.
 */
int take_call(struct call *call, const char *verb, int count, char **words)
{
    const char *why;
    unsigned part;
    int at = 1;

    call->names.count = 0;
    call->try = at < count && strcmp(words[at], "--try") == 0;
    at += call->try;
    if (at + 1 >= count || strcmp(words[at], "--roles") != 0) {
        return at;
    }
    part = take_list(&call->names, words[at + 1], &why);
    if (part != 0) {
        fprintf(stderr, "box: %s: --roles, part %u: %s\n", verb, part, why);
        return 0;
    }
    return at + 2;
}

/* Whether each named role is one of a sheet's; else one line says which roles it has. */
int names_fit(const struct names *names, const char *verb, unsigned role_count)
{
    size_t i;

    for (i = 0; i < names->count; i++) {
        if (names->list[i].role >= role_count) {
            fprintf(stderr, "box: %s: --roles names role %u, %s, and the sheet does not have it: ",
                    verb, names->list[i].role, names->list[i].text);
            fprintf(stderr, role_count == 1 ? "its one role is 0\n" : "its roles are 0 to %u\n",
                    role_count - 1);
            return 0;
        }
    }
    return 1;
}
