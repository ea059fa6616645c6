/*
 * The option --apart: which of the named roles must be apart. Its parts are roles, by their numbers
 * or their names, with commas between them, and blanks wherever one likes.
 */
#include "picture.h"

#include <stdio.h>
#include <string.h>

/* Takes a part of digits, so many of them, as a role that has a name. */
static const char *take_number(const struct names *names, const char *text, size_t digits,
                               unsigned *role)
{
    *role = (unsigned)(text[0] - '0');
    if (digits == 2) {
        *role = 10 * *role + (unsigned)(text[1] - '0');
    }
    return digits <= 2 && name_of_role(names, *role) != NULL
        ? NULL : "--roles gives no name to this role";
}

/* Takes a part, of so many characters and without blanks at its ends, as a role that has a name. */
static const char *take_role(const struct names *names, const char *text, size_t length,
                             unsigned *role)
{
    char name[NAME_BYTES];

    if (length == 0) {
        return "it takes a role or its name, as in 3,7";
    }
    if (strspn(text, "0123456789") >= length) {
        return take_number(names, text, length, role);
    }
    return clean_name(text, length, name) == NULL && role_of_name(names, name, role)
        ? NULL : "--roles has no such name";
}

/* Takes one part up to its comma, and adds its role; what is wrong with it, or nothing. */
static const char *take_part(const struct names *names, const char **at, uint64_t *apart)
{
    const char *why;
    size_t length;
    unsigned role;

    *at += strspn(*at, " ");
    length = strcspn(*at, ",");
    while (length > 0 && (*at)[length - 1] == ' ') {
        length--;
    }
    why = take_role(names, *at, length, &role);
    *at += strcspn(*at, ",");
    if (why != NULL) {
        return why;
    }
    if (*apart >> role & 1) {
        return "the role stands there already";
    }
    *apart |= UINT64_C(1) << role;
    return NULL;
}

/* Takes the list. Where it is wrong, one line says so and 0 comes back. */
int take_apart(const char *list, const struct names *names, uint64_t *apart)
{
    unsigned part = 1;
    const char *why;

    *apart = 0;
    why = take_part(names, &list, apart);
    while (why == NULL && *list == ',') {
        list++;
        part++;
        why = take_part(names, &list, apart);
    }
    if (why == NULL && part == 1) {
        part = 2;
        why = "it is missing, for at least two roles must be apart";
    }
    if (why != NULL) {
        fprintf(stderr, "box: picture: --apart, part %u: %s\n", part, why);
        return 0;
    }
    return 1;
}
